"The digits."
type digit = 0..9;
var d: digit;
begin
  d := 3
end.
