"Two processes want to add to one tally. The rules refuse this text."

type tally = class;
  var count: integer;

  procedure entry add(n: integer);
  begin count := count + n end;

  begin count := 0 end;

counter = process(t: tally; step: integer);
  var i: integer;
  begin
    for i := 1 to 3 do t.add(step)
  end;

var t: tally; a, b: counter;

begin init t, a(t, 1), b(t, 10) end.
