"Records in arrays in records, and a class that has a class of its own: a process that
 moves the points of shapes and measures them, for ever, in private steps.

   cpm run nested.cp --rounds 11 --turn 10000

 It shows what nested variables, copies of records and calls of classes cost."
type form = (open, closed);
point = record x, y: integer end;
shape = record ends: form; points: array [1..8] of point; length: integer end;

counter = class(limit: integer);
  var total, passes: integer;

  procedure entry add(n: integer);
  begin
    total := total + n;
    if total >= limit then
    begin
      total := total - limit;
      passes := (passes + 1) mod 1000
    end
  end;

  function entry level: integer;
  begin
    level := total div 10
  end;

  begin
    total := 0;
    passes := 0
  end;

meter = class(weight: integer);
  var inner: counter; last: point;

  procedure entry note(p: point);
  begin
    inner.add(p.x + p.y * weight);
    last := p
  end;

  function entry reading: integer;
  begin
    reading := inner.level + last.x
  end;

  begin
    init inner(500)
  end;

walker = process;
  var shapes: array [1..4] of shape; m: meter; i, k: integer;

  begin
    init m(3);
    cycle
      for i := 1 to 4 do
      begin
        for k := 1 to 8 do
        begin
          shapes[i].points[k].x := (shapes[i].points[k].x + i * k) mod 100;
          shapes[i].points[k].y := (shapes[i].points[k].y + shapes[i].points[k].x) mod 100;
          m.note(shapes[i].points[k])
        end;
        case shapes[i].ends of
          open: shapes[i].ends := closed;
          closed: begin shapes[i].ends := open; shapes[i].length := m.reading end
        end
      end
    end
  end;

var w: walker;

begin
  init w
end.
