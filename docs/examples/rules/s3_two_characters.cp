"A character constant of two characters."
var c: char;
begin
  c := 'ok'
end.
