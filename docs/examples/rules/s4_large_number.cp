"A number beyond the integers."
var n: integer;
begin
  n := 40000
end.
