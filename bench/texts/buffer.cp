"A bounded buffer between eight producers and eight consumers, for ever: four slots, used
 in a ring. Each queue holds one process, so those that wait take the queues of a ring in
 turn, and are resumed in the order in which they came.

   cpm run buffer.cp --rounds 101 --turn 10000

 It shows what entering a monitor, waiting in it and being resumed cost. The monitor counts
 the items that were put and taken, and how many senders and receivers had to wait."
const slots = 4; last_slot = 3; each = 8; last_each = 7; many = 30000;

type buffer = monitor;
  var items: array [0..last_slot] of integer; head, length: integer;
    senders, receivers: array [0..last_each] of queue;
    first_sender, first_receiver, sending, receiving, next: integer;
    put_items, taken_items, sender_waits, receiver_waits: integer;

  procedure entry put(item: integer);
  begin
    if length = slots then
    begin
      sender_waits := (sender_waits + 1) mod many;
      sending := sending + 1;
      delay(senders[(first_sender + sending - 1) mod each])
    end;
    items[(head + length) mod slots] := item;
    length := length + 1;
    put_items := (put_items + 1) mod many;
    if receiving > 0 then
    begin
      next := first_receiver;
      first_receiver := (next + 1) mod each;
      receiving := receiving - 1;
      continue(receivers[next])
    end
  end;

  procedure entry take(var item: integer);
  begin
    if length = 0 then
    begin
      receiver_waits := (receiver_waits + 1) mod many;
      receiving := receiving + 1;
      delay(receivers[(first_receiver + receiving - 1) mod each])
    end;
    item := items[head];
    head := (head + 1) mod slots;
    length := length - 1;
    taken_items := (taken_items + 1) mod many;
    if sending > 0 then
    begin
      next := first_sender;
      first_sender := (next + 1) mod each;
      sending := sending - 1;
      continue(senders[next])
    end
  end;

  begin
  end;

producer = process(b: buffer);
  var item: integer;
  begin
    cycle item := (item + 1) mod 1000; b.put(item) end
  end;

consumer = process(b: buffer);
  var item, sum: integer;
  begin
    cycle b.take(item); sum := (sum + item) mod 10000 end
  end;

var b: buffer;
  p1, p2, p3, p4, p5, p6, p7, p8: producer;
  c1, c2, c3, c4, c5, c6, c7, c8: consumer;

begin
  init b, p1(b), p2(b), p3(b), p4(b), p5(b), p6(b), p7(b), p8(b),
    c1(b), c2(b), c3(b), c4(b), c5(b), c6(b), c7(b), c8(b)
end.
