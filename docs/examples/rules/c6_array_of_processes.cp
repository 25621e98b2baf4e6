"Three workers in an array."
type worker = process;
  begin display(1) end;
var workers: array [1..3] of worker;
begin
end.
