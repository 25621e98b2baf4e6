"Two ring buffers of lines, for ever: four producers put lines into the first one, four
 copiers take them, change them and put them into the second one, and four consumers take
 them from there. Each queue holds one process, so those that wait take the queues of a
 ring in turn.

   cpm run buffers.cp --rounds 101 --turn 10000

 It shows what two monitors of several users cost, beside work of the users' own. The
 monitors count the lines that were taken, and how many processes had to wait."
const slots = 4; last_slot = 3; each = 8; last_each = 7; many = 30000; width = 8;

type line = array [1..width] of integer;

buffer = monitor;
  var lines: array [0..last_slot] of line; head, length: integer;
    senders, receivers: array [0..last_each] of queue;
    first_sender, first_receiver, sending, receiving, next: integer;
    taken_lines, sender_waits, receiver_waits: integer;

  procedure entry put(text: line);
  begin
    if length = slots then
    begin
      sender_waits := (sender_waits + 1) mod many;
      sending := sending + 1;
      delay(senders[(first_sender + sending - 1) mod each])
    end;
    lines[(head + length) mod slots] := text;
    length := length + 1;
    if receiving > 0 then
    begin
      next := first_receiver;
      first_receiver := (next + 1) mod each;
      receiving := receiving - 1;
      continue(receivers[next])
    end
  end;

  procedure entry take(var text: line);
  begin
    if length = 0 then
    begin
      receiver_waits := (receiver_waits + 1) mod many;
      receiving := receiving + 1;
      delay(receivers[(first_receiver + receiving - 1) mod each])
    end;
    text := lines[head];
    head := (head + 1) mod slots;
    length := length - 1;
    taken_lines := (taken_lines + 1) mod many;
    if sending > 0 then
    begin
      next := first_sender;
      first_sender := (next + 1) mod each;
      sending := sending - 1;
      continue(senders[next])
    end
  end;

  begin
  end;

producer = process(out: buffer);
  var text: line; k, seed: integer;
  begin
    cycle
      for k := 1 to width do
      begin
        seed := (seed * 17 + 59) mod 1009;
        text[k] := seed
      end;
      out.put(text)
    end
  end;

copier = process(inp, out: buffer);
  var text: line; k: integer;
  begin
    cycle
      inp.take(text);
      for k := 1 to width do text[k] := (text[k] * 3 + k) mod 997;
      out.put(text)
    end
  end;

consumer = process(inp: buffer);
  var text: line; k, sum: integer;
  begin
    cycle
      inp.take(text);
      for k := 1 to width do sum := (sum + text[k]) mod 10000
    end
  end;

var a, b: buffer; p1, p2, p3, p4: producer; t1, t2, t3, t4: copier; c1, c2, c3, c4: consumer;

begin
  init a, b, p1(a), p2(a), p3(a), p4(a), t1(a, b), t2(a, b), t3(a, b), t4(a, b),
    c1(b), c2(b), c3(b), c4(b)
end.
