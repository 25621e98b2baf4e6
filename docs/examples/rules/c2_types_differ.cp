"A digit is a character, and a count is an integer."
var count: integer;
begin
  count := '5'
end.
