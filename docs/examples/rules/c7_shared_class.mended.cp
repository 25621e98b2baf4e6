"Two processes that share a monitor."
type stack = monitor;
  var top: integer;
  procedure entry push; begin top := top + 1 end;
  begin top := 0 end;
user = process(s: stack);
  begin s.push end;
var s: stack; a, b: user;
begin
  init s, a(s), b(s)
end.
