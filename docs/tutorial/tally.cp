"Two processes of one type, each with a class of its own."

type tally = class;
  var count: integer;

  procedure entry add(n: integer);
  begin count := count + n end;

  function entry total: integer;
  begin total := count end;

  begin count := 0 end;

counter = process(step: integer);
  var t: tally; i: integer;
  begin
    init t;
    for i := 1 to 3 do t.add(step);
    display(t.total)
  end;

var a, b: counter;

begin init a(1), b(10) end.
