"Two numbers that share the digits."
var thousands, rest: integer;
begin
  thousands := 40;
  rest := 0
end.
