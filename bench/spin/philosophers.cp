"Five philosophers, each of whom takes the fork at the left and then the one at the right: all may wait forever."
type fork = monitor;
  var is_taken: boolean; waiting: queue;

  procedure entry take;
  begin
    if is_taken then delay(waiting);
    is_taken := true
  end;

  procedure entry put;
  begin is_taken := false; continue(waiting) end;

  begin is_taken := false end;

philosopher = process(left, right: fork; meals: integer);
  var meal: integer;
  begin
    for meal := 1 to meals do
    begin left.take; right.take; display('*'); right.put; left.put end
  end;

var f, g, h, i, j: fork; p, q, r, s, t: philosopher;

begin
  init f, g, h, i, j, p(f, g, 3), q(g, h, 3), r(h, i, 3), s(i, j, 3), t(j, f, 3)
end.
