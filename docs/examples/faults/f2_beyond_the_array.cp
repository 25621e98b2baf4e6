"A loop that runs past the end of an array."
var v: array [1..3] of integer; i: integer;
begin
  for i := 1 to 4 do v[i] := i
end.
