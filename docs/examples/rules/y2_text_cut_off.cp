"A text that stops before its end."
var n: integer;
begin
  n := 1
