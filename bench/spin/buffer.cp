"Two senders and two receivers of a buffer with two places. All end in every order."
type buffer = monitor;
  var contents: array [0..1] of integer; head, length: integer;
    senders, receivers: array [1..2] of queue;

  procedure entry send(me, n: integer);
  begin
    if length = 2 then delay(senders[me]);
    contents[(head + length) mod 2] := n;
    length := length + 1;
    if empty(receivers[1]) then continue(receivers[2]) else continue(receivers[1])
  end;

  procedure entry receive(me: integer; var n: integer);
  begin
    if length = 0 then delay(receivers[me]);
    n := contents[head];
    head := (head + 1) mod 2;
    length := length - 1;
    if empty(senders[1]) then continue(senders[2]) else continue(senders[1])
  end;

  begin head := 0; length := 0 end;

sender = process(b: buffer; me, count: integer);
  var n: integer;
  begin for n := 1 to count do b.send(me, n) end;

receiver = process(b: buffer; me, count: integer);
  var k, n: integer;
  begin for k := 1 to count do b.receive(me, n) end;

var b: buffer; s, t: sender; u, v: receiver;

begin init b, s(b, 1, 6), t(b, 2, 6), u(b, 1, 6), v(b, 2, 6) end.
