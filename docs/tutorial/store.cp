"A process is delayed in an inner monitor, and keeps the gate of the outer one."

type lock = monitor;
  var sleepers: queue;

  procedure entry rest;
  begin delay(sleepers) end;

  procedure entry wake;
  begin continue(sleepers) end;

  begin end;

store = monitor(inner: lock);
  var visits: integer;

  procedure entry rest;
  begin visits := visits + 1; inner.rest end;

  procedure entry look;
  begin visits := visits + 1 end;

  begin visits := 0 end;

sleeper = process(s: store);
  begin s.rest end;

visitor = process(s: store; k: lock);
  begin s.look; k.wake end;

var k: lock; s: store; a: sleeper; b, c: visitor;

begin init k, s(k), a(s), b(s, k), c(s, k) end.
