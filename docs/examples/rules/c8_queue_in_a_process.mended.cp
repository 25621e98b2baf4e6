"A monitor that keeps a queue for its callers to wait in."
type house = monitor;
  var bed: queue;
  procedure entry sleep; begin delay(bed) end;
  procedure entry wake; begin continue(bed) end;
  begin end;
sleeper = process(h: house);
  begin h.sleep end;
var h: house; s: sleeper;
begin
  init h, s(h)
end.
