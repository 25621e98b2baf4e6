"A counter that misspells its variable."
var total: integer;
begin
  total := 0;
  cycle totl := total + 1 end
end.
