"A process displays the time at each of three ticks."

type timer = process(beats: integer);
  var beat: integer;
  begin
    for beat := 1 to beats do
    begin
      wait;
      display(realtime);
      display(' ')
    end
  end;

var t: timer;

begin init t(3) end.
