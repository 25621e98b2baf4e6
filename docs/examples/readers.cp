"Readers and a writer: readers may read at the same time, a writer works alone.

   cpm run readers.cp --rounds 7

 A page has two parts, and each call of it is for one part. `access` keeps the two calls
 of a writing together: no reader sees a page that is half written. A reader that finds
 the writer waiting waits too, so the writer gets its turn. A reader that is woken wakes
 the other one.

 In the report r and s both read (`reading = 2`), and w waits in next_writer to write a 2.
 With 4 rounds w is in the middle of writing a 1 (part[1] and part[2] differ), and s
 waits. With 13 rounds all have ended: r displayed 00 and 11, and s 11 and 22."
type access = monitor;
  var reading: integer; writing: boolean;
    next_reader: array [1..2] of queue; next_writer: queue;

  procedure entry start_reading(me: integer);
  begin
    if writing or not empty(next_writer) then delay(next_reader[me]);
    reading := reading + 1;
    continue(next_reader[3 - me])
  end;
  procedure entry stop_reading;
  begin
    reading := reading - 1;
    if reading = 0 then continue(next_writer)
  end;
  procedure entry start_writing;
  begin
    if reading > 0 then delay(next_writer);
    writing := true
  end;
  procedure entry stop_writing;
  begin
    writing := false;
    if empty(next_reader[1]) then continue(next_reader[2]) else continue(next_reader[1])
  end;
  begin end;

page = monitor;
  var part: array [1..2] of integer;
  procedure entry put(k, n: integer); begin part[k] := n end;
  function entry get(k: integer): integer; begin get := part[k] end;
  begin end;

reader = process(a: access; p: page; me: integer);
  var time: integer;
  begin
    for time := 1 to 2 do
    begin a.start_reading(me); display(p.get(1)); display(p.get(2)); a.stop_reading end
  end;
writer = process(a: access; p: page);
  var n: integer;
  begin
    for n := 1 to 2 do
    begin a.start_writing; p.put(1, n); display(n); p.put(2, n); a.stop_writing end
  end;

var a: access; p: page; r: reader; w: writer; s: reader;
begin init a, p, r(a, p, 1), w(a, p), s(a, p, 2) end.
