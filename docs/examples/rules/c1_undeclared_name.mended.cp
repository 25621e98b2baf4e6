"A counter."
var total: integer;
begin
  total := 0;
  cycle total := total + 1 end
end.
