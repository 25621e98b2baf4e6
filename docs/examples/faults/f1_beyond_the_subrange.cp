"A digit that counts one step too far."
var d: 0..9;
begin
  d := 9;
  d := d + 1
end.
