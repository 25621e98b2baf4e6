"Two sources, and nobody who takes a character: a queue has room for one process."

type slot = monitor;
  var content: char; full: boolean; sender: queue;

  procedure entry send(c: char);
  begin
    if full then delay(sender);
    content := c;
    full := true
  end;

  begin full := false end;

source = process(s: slot);
  var c: char;
  begin
    for c := 'a' to 'c' do s.send(c)
  end;

var s: slot; q, r: source;

begin init s, q(s), r(s) end.
