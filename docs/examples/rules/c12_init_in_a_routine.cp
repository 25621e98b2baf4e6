"A procedure that starts a component anew."
type timer = class;
  var ticks: integer;
  begin ticks := 0 end;
var t: timer;
procedure reset;
begin
  init t
end;
begin
  reset
end.
