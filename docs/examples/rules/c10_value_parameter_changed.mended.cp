"A procedure that doubles a variable of its caller."
var x: integer;
procedure double(var n: integer);
begin
  n := n + n
end;
begin
  x := 3;
  double(x);
  display(x)
end.
