"Two philosophers. Each takes its left fork, and then waits for its right one."
type fork = monitor;
  var taken: boolean; waiting: queue;
  procedure entry get;
  begin if taken then delay(waiting); taken := true end;
  procedure entry put;
  begin taken := false; continue(waiting) end;
  begin taken := false end;
philosopher = process(left, right: fork);
  var meals: integer;
  begin
    left.get; meals := 0; right.get;
    meals := meals + 1;
    right.put; left.put
  end;
var f, g: fork; a, b: philosopher;
begin init f, g, a(f, g), b(g, f) end.
