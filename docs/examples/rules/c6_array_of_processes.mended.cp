"Three workers."
type worker = process;
  begin display(1) end;
var a, b, c: worker;
begin
  init a, b, c
end.
