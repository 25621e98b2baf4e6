"One more than the greatest integer."
var x: integer;
begin
  x := 32767;
  x := x + 1
end.
