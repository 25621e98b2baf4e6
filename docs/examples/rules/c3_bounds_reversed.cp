"The digits, written from the last to the first."
type digit = 9..0;
var d: digit;
begin
  d := 3
end.
