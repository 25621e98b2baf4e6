"A test of the class fifo alone: four arrivals and departures in a ring of three."

type fifo = class(limit: integer);
  var head, tail, length: integer;

  function entry arrival: integer;
  begin
    arrival := tail;
    tail := tail mod limit + 1;
    length := length + 1
  end;

  function entry departure: integer;
  begin
    departure := head;
    head := head mod limit + 1;
    length := length - 1
  end;

  function entry nobody: boolean;
  begin nobody := length = 0 end;

  begin head := 1; tail := 1; length := 0 end;

var f: fifo;

begin
  init f(3);
  display(f.arrival);
  display(f.arrival);
  display(f.departure);
  display(f.arrival);
  display(f.departure);
  display(f.arrival);
  display(f.departure);
  display(f.departure);
  display(f.nobody)
end.
