"A counter that is called before it is initialised."
type counter = monitor;
  var n: integer;
  procedure entry add; begin n := n + 1 end;
  begin n := 0 end;
var c: counter;
begin
  c.add
end.
