"A whole text."
var n: integer;
begin
  n := 1
end.
