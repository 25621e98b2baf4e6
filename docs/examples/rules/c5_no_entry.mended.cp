"A process calls an entry routine of a monitor."
type counter = monitor;
  var n: integer;
  procedure entry add; begin n := n + 1 end;
  begin n := 0 end;
worker = process(c: counter);
  begin c.add end;
var c: counter; w: worker;
begin
  init c, w(c)
end.
