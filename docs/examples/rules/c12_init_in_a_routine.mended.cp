"A timer with an entry procedure that sets it back."
type timer = class;
  var ticks: integer;
  procedure entry reset; begin ticks := 0 end;
  begin ticks := 0 end;
var t: timer;
begin
  init t;
  t.reset
end.
