"A process that sleeps three ticks by itself."

type late = process(ticks: integer);
  var i: integer;
  begin
    for i := 1 to ticks do wait;
    display(realtime)
  end;

var a: late;

begin init a(3) end.
