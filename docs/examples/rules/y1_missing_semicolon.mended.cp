"Two statements with a semicolon between them."
var n: integer;
begin
  n := 1;
  display(n)
end.
