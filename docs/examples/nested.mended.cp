"The same as nested.cp without a call from one monitor into another.

   cpm run nested.mended.cp --rounds 3

 A process pays: it calls one account, and then the other. It holds one gate at a time,
 and asks for none while it holds one. So money goes both ways, and nobody waits for ever.

 In the report a has 8 and b has 12: together as much as before, for both processes have
 ended. What one has paid and the other hasn't received yet is in neither account."
type account = monitor;
  var money: integer;

  procedure entry receive(n: integer);
  begin money := money + n end;

  procedure entry pay(n: integer);
  begin money := money - n end;

  begin money := 10 end;

payer = process(from, into: account; n: integer);
  begin from.pay(n); into.receive(n) end;

var a, b: account; p, q: payer;
begin
  init a, b, p(a, b, 3), q(b, a, 1)
end.
