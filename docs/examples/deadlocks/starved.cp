"Two readers take turns to read, so that one of them always reads. The writer waits until none does."
type page = monitor;
  var readers: integer; writer: queue;
  procedure entry start; begin readers := readers + 1 end;
  procedure entry stop;
  begin readers := readers - 1; if readers = 0 then continue(writer) end;
  procedure entry write; begin if readers > 0 then delay(writer) end;
  begin readers := 0 end;
reader = process(p: page);
  var x: integer;
  begin p.start; cycle x := 1; p.stop; p.start end end;
scribe = process(p: page); begin p.write end;
var p: page; a, b: reader; w: scribe;
begin init p, a(p), b(p), w(p) end.
