"A tally that can take back the last number that was added."

type tally = class;
  var count, last: integer;

  procedure entry add(n: integer);
  begin count := count + n; last := n end;

  procedure entry undo;
  begin count := count - last; last := 0 end;

  function entry total: integer;
  begin total := count end;

  begin count := 0; last := 0 end;

counter = process(step: integer);
  var t: tally; i: integer;
  begin
    init t;
    for i := 1 to 3 do t.add(step);
    t.undo;
    display(t.total)
  end;

var a, b: counter;

begin init a(1), b(10) end.
