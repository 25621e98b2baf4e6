"Two statements with nothing between them."
var n: integer;
begin
  n := 1
  display(n)
end.
