"A short name."
var messages: integer;
begin end.
