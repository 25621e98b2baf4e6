"A process that keeps a queue to wait in."
type sleeper = process;
  var bed: queue;
  begin delay(bed) end;
var s: sleeper;
begin
  init s
end.
