"A bounded buffer: three slots, used in a ring, between two producers and a consumer.

   cpm run buffer.cp --rounds 6

 A producer that finds the buffer full delays itself, and so does the consumer that
 finds it empty. A queue holds one process at most, so each producer has its own.
 `continue` ends the routine that calls it and hands the monitor to the process that
 it wakes. That one finds what it waited for, whoever else asks for the monitor.

 In the report q is delayed in senders[2], for the `d` of p filled the third slot before
 it came (`length = 3`). r has the monitor (`held 3`) and takes the next character in
 round 7. With 11 rounds the producers have ended, and r waits for ever for one more."
type buffer = monitor;
  var slots: array [0..2] of char; head, length: integer;
    senders: array [1..2] of queue; receiver: queue;

  procedure entry put(c: char; me: integer);
  begin
    if length = 3 then delay(senders[me]);
    slots[(head + length) mod 3] := c;
    length := length + 1;
    continue(receiver)
  end;

  procedure entry get(var c: char);
  begin
    if length = 0 then delay(receiver);
    c := slots[head];
    head := (head + 1) mod 3;
    length := length - 1;
    if empty(senders[1]) then continue(senders[2]) else continue(senders[1])
  end;

  begin head := 0; length := 0 end;

producer = process(b: buffer; me: integer; first, last: char);
  var c: char;
  begin
    for c := first to last do b.put(c, me)
  end;

consumer = process(b: buffer);
  var c: char;
  begin
    cycle b.get(c); display(c) end
  end;

var b: buffer; p: producer; r: consumer; q: producer;

begin
  init b, p(b, 1, 'a', 'd'), r(b), q(b, 2, 'p', 's')
end.
