"Three speakers share one sheet of paper without asking for it. Their words mix."

type paper = monitor;
  var text: array [1..9] of char; used: integer;

  procedure entry print(c: char);
  begin
    used := used + 1;
    text[used] := c
  end;

  begin used := 0 end;

terminal = class(sheet: paper);

  procedure entry write(c: char);
  var i: integer;
  begin
    for i := 1 to 3 do sheet.print(c)
  end;

  begin end;

speaker = process(sheet: paper; letter: char);
  var t: terminal;
  begin
    init t(sheet);
    t.write(letter)
  end;

var sheet: paper; x, y, z: speaker;

begin init sheet, x(sheet, 'x'), y(sheet, 'y'), z(sheet, 'z') end.
