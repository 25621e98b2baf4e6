"A reader waits in the slot, inside of the store. So the writer can't enter the store."
type slot = monitor;
  var full: boolean; readers: queue;
  procedure entry put; begin full := true; continue(readers) end;
  procedure entry get;
  begin if not full then delay(readers); full := false end;
  begin full := false end;
store = monitor(s: slot);
  procedure entry write; begin s.put end;
  procedure entry read; begin s.get end;
  begin end;
reader = process(t: store); begin t.read end;
writer = process(t: store); begin t.write end;
var s: slot; t: store; a: reader; b: writer;
begin init s, t(s), a(t), b(t) end.
