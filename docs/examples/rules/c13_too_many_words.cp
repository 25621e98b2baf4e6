"A picture of 300 lines of 300 characters."
var picture: array [1..300, 1..300] of char;
begin
  picture[1, 1] := '.'
end.
