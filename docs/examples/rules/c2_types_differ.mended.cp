"A digit and its count."
var count: integer;
begin
  count := ord('5') - ord('0')
end.
