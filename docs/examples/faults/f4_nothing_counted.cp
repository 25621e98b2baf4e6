"The mean of no numbers."
var sum, count: integer;
begin
  sum := 10; count := 0;
  display(sum div count)
end.
