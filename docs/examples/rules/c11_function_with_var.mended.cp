"A function that computes, and a statement that stores."
var seed: integer;
function next(s: integer): integer;
begin
  next := (s * 7 + 3) mod 101
end;
begin
  seed := 1;
  seed := next(seed);
  display(seed)
end.
