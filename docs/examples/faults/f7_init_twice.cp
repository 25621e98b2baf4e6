"A timer that is initialised again to set it back."
type timer = class;
  var ticks: integer;
  begin ticks := 0 end;
var t: timer;
begin
  init t;
  init t
end.
