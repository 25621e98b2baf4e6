"A monitor in whose entry routine a process waits."
type gate = monitor;
  var arrived: queue;
  procedure entry arrive; begin delay(arrived) end;
  procedure entry open; begin continue(arrived) end;
  begin end;
var g: gate;
begin
  init g
end.
