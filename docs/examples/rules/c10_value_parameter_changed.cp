"A procedure that means to double a variable of its caller."
var x: integer;
procedure double(n: integer);
begin
  n := n + n
end;
begin
  x := 3;
  double(x);
  display(x)
end.
