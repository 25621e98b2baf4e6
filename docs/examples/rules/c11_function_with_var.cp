"A function that also changes its argument."
var seed: integer;
function next(var s: integer): integer;
begin
  s := (s * 7 + 3) mod 101;
  next := s
end;
begin
  seed := 1;
  display(next(seed))
end.
