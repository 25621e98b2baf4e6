"Two guests that wait in one queue."
type house = monitor;
  var door: queue;
  procedure entry enter; begin delay(door) end;
  begin end;
guest = process(h: house);
  begin h.enter end;
var h: house; a, b: guest;
begin
  init h, a(h), b(h)
end.
