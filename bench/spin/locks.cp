"Two processes that take two locks in opposite order: both may wait forever."
type lock = monitor;
  var is_taken: boolean; waiting: queue;

  procedure entry acquire;
  begin
    if is_taken then delay(waiting);
    is_taken := true
  end;

  procedure entry release;
  begin is_taken := false; continue(waiting) end;

  begin is_taken := false end;

user = process(first, second: lock; times: integer);
  var time: integer;
  begin
    for time := 1 to times do
    begin first.acquire; second.acquire; display('u'); second.release; first.release end
  end;

var a, b: lock; u, v: user;

begin init a, b, u(a, b, 20), v(b, a, 20) end.
