"A scheduler of one resource, here a printer, that two users want at the same time.

   cpm run scheduler.cp --rounds 5

 What a user does with the printer it does outside of the monitor, between `request` and
 `release`, in as many rounds as it likes. A `release` hands the printer straight to a
 user that waits: `free` stays false then, so nobody else can take it in between.

 In the report a has the printer for the second time, and b, which wants it again too,
 waits (`queue waiting = 3`). With 8 rounds both have ended, and the printer is free."
type scheduler = monitor;
  var free: boolean; waiting: queue;

  procedure entry request;
  begin
    if free then free := false else delay(waiting)
  end;

  procedure entry release;
  begin
    if empty(waiting) then free := true else continue(waiting)
  end;

  begin free := true end;

user = process(printer: scheduler);
  var time: integer;
  begin
    for time := 1 to 2 do
    begin
      printer.request;
      display(time);    "the user has the printer here, and no gate"
      printer.release
    end
  end;

var printer: scheduler; a, b: user;

begin
  init printer, a(printer), b(printer)
end.
