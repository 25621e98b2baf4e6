"The small operating system with buffers of two pages, and the number of a job above its lines.

 A card has 4 characters, and a job is all cards up to one that begins with `$`. A page of
 2 cards is what travels from the card reader to the job, and from the job to the printer."

const card_length = 4; page_length = 2; em = '(:25:)'; newline = '(:10:)';

type card = array [1..card_length] of char;

page = record cards: array [1..page_length] of card; used: integer; last: boolean end;

"The devices: only the process that owns one uses it."

card_reader = class;

  procedure entry read(var c: card);
  var i: integer;
  begin
    for i := 1 to card_length do accept(c[i])
  end;

  begin end;

line_printer = class;
  var column, job: integer; fresh: boolean;

  procedure entry print(c: card);
  var i: integer;
  begin
    if fresh then
    begin
      job := job + 1;
      fresh := false;
      display('#');
      display(job);
      display(newline)
    end;
    for i := 1 to card_length do display(c[i]);
    column := (column + 1) mod 2;
    if column = 0 then display(newline)
  end;

  procedure entry eject;
  begin
    if column > 0 then display(newline);
    display('-');
    display(newline);
    column := 0;
    fresh := true
  end;

  begin column := 0; job := 0; fresh := true end;

"What joins the processes."

page_buffer = monitor;
  var ring: array [0..1] of page; head, length: integer; sender, receiver: queue;

  procedure entry send(p: page);
  begin
    if length = 2 then delay(sender);
    ring[(head + length) mod 2] := p;
    length := length + 1;
    continue(receiver)
  end;

  procedure entry receive(var p: page);
  begin
    if length = 0 then delay(receiver);
    p := ring[head];
    head := (head + 1) mod 2;
    length := length - 1;
    continue(sender)
  end;

  begin head := 0; length := 0 end;

"Cards to pages, and back."

writer = class(out: page_buffer);
  var p: page;

  procedure entry write(c: card);
  begin
    p.used := p.used + 1;
    p.cards[p.used] := c;
    if p.used = page_length then
    begin
      out.send(p);
      p.used := 0
    end
  end;

  procedure entry close;
  begin
    p.last := true;
    out.send(p);
    p.used := 0;
    p.last := false
  end;

  begin p.used := 0; p.last := false end;

reader = class(source: page_buffer);
  var p: page; read_so_far: integer; fresh: boolean;

  "Gives the next card of a job, or says that there are no more."
  procedure entry read(var c: card; var ended: boolean);
  begin
    if fresh or (read_so_far = p.used) & not p.last then
    begin
      source.receive(p);
      read_so_far := 0;
      fresh := false
    end;
    ended := read_so_far = p.used;
    if ended then fresh := true
    else begin
      read_so_far := read_so_far + 1;
      c := p.cards[read_so_far]
    end
  end;

  begin fresh := true; read_so_far := 0 end;

"The three processes."

card_process = process(out: page_buffer);
  var r: card_reader; w: writer; c: card;
  begin
    init r, w(out);
    r.read(c);
    while c[1] <> em do
    begin
      while (c[1] <> '$') & (c[1] <> em) do
      begin
        w.write(c);
        r.read(c)
      end;
      w.close;
      if c[1] = '$' then r.read(c)
    end
  end;

job_process = process(source, out: page_buffer);
  var r: reader; w: writer; c: card; ended: boolean; count: integer;
  begin
    init r(source), w(out);
    cycle
      count := 0;
      r.read(c, ended);
      while not ended do
      begin
        count := count + 1;
        w.write(c);
        r.read(c, ended)
      end;
      c[1] := '='; c[2] := chr(ord('0') + count); c[3] := '='; c[4] := '=';
      w.write(c);
      w.close
    end
  end;

printer_process = process(source: page_buffer);
  var r: reader; l: line_printer; c: card; ended: boolean;
  begin
    init r(source), l;
    cycle
      r.read(c, ended);
      if ended then l.eject else l.print(c)
    end
  end;

var b1, b2: page_buffer; cards: card_process; job: job_process; printer: printer_process;

begin init b1, b2, cards(b1), job(b1, b2), printer(b2) end.
