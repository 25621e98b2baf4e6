"Two guests wait at one door, which has room for one."
type house = monitor;
  var door: queue;
  procedure entry arrive; begin delay(door) end;
  procedure entry open; begin continue(door) end;
  begin end;
guest_process = process(h: house); begin h.arrive end;
host_process = process(h: house); begin h.open end;
var h: house; a, b: guest_process; host: host_process;
begin init h, a(h), b(h), host(h) end.
