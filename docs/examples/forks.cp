"Three philosophers who never eat: each takes its left fork, and then waits for the right one.

   cpm outcome forks.cp

 Each fork is a monitor: a philosopher who finds it taken is delayed in its queue. In round 2
 each philosopher takes its left fork. In round 3 it displays `<`, asks for the right fork,
 and is delayed, because its neighbour took that fork in round 2. So a waits for b, b waits
 for c, and c waits for a: a deadlock.

 In philosophers.cp one monitor has all forks, and a philosopher takes both or none."
type fork = monitor;
  var taken: boolean; waiting: queue;

  procedure entry take;
  begin
    if taken then delay(waiting);
    taken := true
  end;

  procedure entry put;
  begin taken := false; continue(waiting) end;

  begin taken := false end;

philosopher = process(left, right: fork);
  begin
    cycle
      left.take; display('<'); right.take; display('>');
      left.put; right.put
    end
  end;

var f, g, h: fork; a, b, c: philosopher;
begin init f, g, h, a(f, g), b(g, h), c(h, f) end.
