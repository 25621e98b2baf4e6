"Periodic tasks: each has a time at which it begins, and a period. A clock wakes those that are due."

const tasks = 3;

type task_number = 1..tasks;

schedule = monitor;
  var now: integer; due, period: array [task_number] of integer;
    resting: array [task_number] of queue;

  procedure entry plan(t: task_number; first, every: integer);
  begin due[t] := first; period[t] := every end;

  procedure entry rest(t: task_number);
  begin delay(resting[t]) end;

  procedure entry tick(time: integer);
  begin now := time end;

  procedure entry examine(t: task_number);
  begin
    if not empty(resting[t]) & (due[t] <= now) then
    begin
      due[t] := due[t] + period[t];
      continue(resting[t])
    end
  end;

  begin now := 0 end;

clock = process(s: schedule);
  var t: task_number;
  begin
    cycle
      wait;
      s.tick(realtime);
      for t := 1 to tasks do s.examine(t)
    end
  end;

task = process(s: schedule; t: task_number; first, every: integer);
  begin
    s.plan(t, first, every);
    cycle
      s.rest(t);
      display(realtime);
      display(' ')
    end
  end;

var s: schedule; c: clock; x, y, z: task;

begin init s, c(s), x(s, 1, 5, 5), y(s, 2, 7, 3), z(s, 3, 4, 10) end.
