"A character constant of one character."
var c: char;
begin
  c := 'o'
end.
