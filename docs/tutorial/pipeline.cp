"A reader, a copier and a printer, joined by buffers of one line. A line ends with `/`."

const length = 5; eol = '/'; em = '(:25:)'; blank = ' '; newline = '(:10:)';

type line = array [1..length] of char;

buffer = monitor;
  var contents: line; full: boolean; sender, receiver: queue;

  procedure entry send(text: line);
  begin
    if full then delay(sender);
    contents := text;
    full := true;
    continue(receiver)
  end;

  procedure entry receive(var text: line);
  begin
    if not full then delay(receiver);
    text := contents;
    full := false;
    continue(sender)
  end;

  begin full := false end;

reader = process(out: buffer);
  var text: line; c: char; i: integer;
  begin
    repeat
      for i := 1 to length do text[i] := blank;
      i := 0;
      accept(c);
      while (c <> eol) & (c <> em) do
      begin
        if i < length then begin i := i + 1; text[i] := c end;
        accept(c)
      end;
      if (i > 0) or (c = eol) then out.send(text)
    until c = em;
    text[1] := em;
    out.send(text)
  end;

copier = process(into, out: buffer);
  var text: line;
  begin
    cycle into.receive(text); out.send(text) end
  end;

printer = process(into: buffer);
  var text: line; i: integer;
  begin
    into.receive(text);
    while text[1] <> em do
    begin
      for i := 1 to length do display(text[i]);
      display(newline);
      into.receive(text)
    end
  end;

var b1, b2: buffer; r: reader; c: copier; p: printer;

begin init b1, b2, r(b1), c(b1, b2), p(b2) end.
