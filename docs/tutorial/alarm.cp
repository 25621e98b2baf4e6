"An alarm clock: sleepers are woken after so many ticks."

const sleepers = 3;

type alarm = monitor;
  var now: integer; wake_at: array [1..sleepers] of integer;
    asleep: array [1..sleepers] of queue;

  procedure entry sleep(me, ticks: integer);
  begin
    wake_at[me] := now + ticks;
    delay(asleep[me])
  end;

  procedure entry tick;
  begin now := now + 1 end;

  procedure entry wake(who: integer);
  begin
    if wake_at[who] <= now then continue(asleep[who])
  end;

  begin now := 0 end;

ticker = process(a: alarm);
  var i: integer;
  begin
    cycle
      wait;
      a.tick;
      for i := 1 to sleepers do a.wake(i)
    end
  end;

sleeper = process(a: alarm; me, ticks: integer);
  begin
    cycle
      a.sleep(me, ticks);
      display(realtime);
      display(' ')
    end
  end;

var a: alarm; t: ticker; x, y, z: sleeper;

begin init a, t(a), x(a, 1, 1), y(a, 2, 2), z(a, 3, 3) end.
