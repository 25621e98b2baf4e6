"A slot whose `receive` continues the sender too early: the sink never gets a character."

type slot = monitor;
  var content: char; full: boolean; sender, receiver: queue;

  procedure entry send(c: char);
  begin
    if full then delay(sender);
    content := c;
    full := true;
    continue(receiver)
  end;

  procedure entry receive(var c: char);
  begin
    if not full then delay(receiver);
    full := false;
    continue(sender);
    c := content
  end;

  begin full := false end;

sink = process(s: slot);
  var c: char;
  begin
    cycle s.receive(c); display(c) end
  end;

source = process(s: slot);
  var c: char;
  begin
    for c := 'a' to 'c' do s.send(c)
  end;

var s: slot; p: sink; q: source;

begin init s, p(s), q(s) end.
