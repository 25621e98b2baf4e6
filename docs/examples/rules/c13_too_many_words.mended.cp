"A picture of 200 lines of 300 characters."
var picture: array [1..200, 1..300] of char;
begin
  picture[1, 1] := '.'
end.
