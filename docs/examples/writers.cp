"Two writers and a cell: what the order of a round decides, and what it doesn't.

   cpm replay writers.cp writers.sequential.order --turn 4
   cpm replay writers.cp writers.mixed.order --turn 4
   cpm replay writers.cp writers.unlawful.order --turn 4

 In the first order each process has its four private steps and then its kernel turn
 before the next one begins, as on one processor. The second mixes the private steps of
 all processes, as several threads do. Both are lawful, and the report is the same one:
 b writes last, so `last` is 2. In the third order the kernel turn of process 3, which
 is b, comes before that of process 2, which no run does: a writes last, and `last` is 1."
type cell = monitor;
  var last: integer;

  procedure entry put(n: integer);
  begin last := n end;

  begin end;

writer = process(c: cell; n: integer);
  var value: integer;
  begin value := n; c.put(value) end;

var c: cell; a, b: writer;
begin init c, a(c, 1), b(c, 2) end.
