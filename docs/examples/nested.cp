"Two monitors that call each other: the rules refuse them, for calls could go in a circle.

   cpm check nested.cp

 A process that pays from `a` to `b` would hold the gate of a and ask for that of b, and
 another one that pays from `b` to `a` would hold that of b and ask for that of a. A
 process that calls from one monitor into another keeps the gate of the first, so neither
 could go on.

 The type of a monitor names the types of those that it may call, and a name is visible
 behind its definition only: `savings` isn't yet where `account` wants it (C1). If both
 were of one type, it would be named inside its own definition (C4). A monitor can't be
 given to another later either: a routine's parameter is no component (C7). So calls of
 monitors go back in the text, and never in a circle. (To wait for ever there are still
 other ways: nobody wakes a process that is delayed, or a fault stops one in a monitor.)

 nested.mended.cp pays both ways without a call from one monitor into another."
type account = monitor(other: savings);
  var money: integer;

  procedure entry receive(n: integer);
  begin money := money + n end;

  procedure entry pay(n: integer);
  begin money := money - n; other.receive(n) end;

  begin money := 10 end;

savings = monitor(other: account);
  var money: integer;

  procedure entry receive(n: integer);
  begin money := money + n end;

  procedure entry pay(n: integer);
  begin money := money - n; other.receive(n) end;

  begin money := 10 end;

payer = process(from: account);
  begin from.pay(1) end;

saver = process(from: savings);
  begin from.pay(1) end;

var a: account; b: savings; p: payer; q: saver;
begin
  init a(b), b(a), p(a), q(b)
end.
