"A monitor that waits while it is being initialised."
type gate = monitor;
  var arrived: queue;
  procedure entry open; begin continue(arrived) end;
  begin delay(arrived) end;
var g: gate;
begin
  init g
end.
