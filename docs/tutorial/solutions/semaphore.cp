"A semaphore: at most so many users at once as there are permits."

type semaphore = monitor(permits: integer);
  var left: integer; waiting: queue;

  procedure entry acquire;
  begin
    if left > 0 then left := left - 1 else delay(waiting)
  end;

  procedure entry release;
  begin
    if empty(waiting) then left := left + 1 else continue(waiting)
  end;

  begin left := permits end;

user = process(s: semaphore);
  begin
    s.acquire;
    display('+');
    s.release
  end;

var s: semaphore; a, b, c: user;

begin init s(2), a(s), b(s), c(s) end.
