"Three speakers share one sheet of paper. A speaker keeps the sheet until its word is written."

type fifo = class(limit: integer);
  var head, tail, length: integer;

  function entry arrival: integer;
  begin
    arrival := tail;
    tail := tail mod limit + 1;
    length := length + 1
  end;

  function entry departure: integer;
  begin
    departure := head;
    head := head mod limit + 1;
    length := length - 1
  end;

  function entry nobody: boolean;
  begin nobody := length = 0 end;

  begin head := 1; tail := 1; length := 0 end;

resource = monitor;
  var free: boolean; waiting: array [1..3] of queue; next: fifo;

  procedure entry request;
  begin
    if free then free := false else delay(waiting[next.arrival])
  end;

  procedure entry release;
  begin
    if next.nobody then free := true else continue(waiting[next.departure])
  end;

  begin free := true; init next(3) end;

paper = monitor;
  var text: array [1..9] of char; used: integer;

  procedure entry print(c: char);
  begin
    used := used + 1;
    text[used] := c
  end;

  begin used := 0 end;

terminal = class(access: resource; sheet: paper);

  procedure entry write(c: char);
  var i: integer;
  begin
    access.request;
    for i := 1 to 3 do sheet.print(c);
    access.release
  end;

  begin end;

speaker = process(access: resource; sheet: paper; letter: char);
  var t: terminal;
  begin
    init t(access, sheet);
    t.write(letter)
  end;

var access: resource; sheet: paper; x, y, z: speaker;

begin
  init access, sheet,
    x(access, sheet, 'x'), y(access, sheet, 'y'), z(access, sheet, 'z')
end.
