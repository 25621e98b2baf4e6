"The store mended: a sleeper rests when it has left the store.
 The lock remembers a wakeup that comes before the sleeper rests."

type lock = monitor;
  var sleepers: queue; woken: boolean;

  procedure entry rest;
  begin
    if woken then woken := false else delay(sleepers)
  end;

  procedure entry wake;
  begin
    if empty(sleepers) then woken := true else continue(sleepers)
  end;

  begin woken := false end;

store = monitor;
  var visits: integer;

  procedure entry look;
  begin visits := visits + 1 end;

  begin visits := 0 end;

sleeper = process(s: store; k: lock);
  begin s.look; k.rest end;

visitor = process(s: store; k: lock);
  begin s.look; k.wake end;

var k: lock; s: store; a: sleeper; b, c: visitor;

begin init k, s, a(s, k), b(s, k), c(s, k) end.
