"Four philosophers at a round table, and one fork between each two of them. Who wants to
 eat needs the forks on both sides, k and k + 1 for philosopher k (0 comes after 3).

   cpm run philosophers.cp --rounds 3

 If each took its left fork and then waited for the right one, all four could wait for
 ever. Here all forks lie in one monitor, and one takes both forks or none. A `continue`
 ends the routine that calls it, so a routine can wake one neighbour: that is why the
 forks are put down one by one.

 In the report a and c have displayed their first meal. a has put down both its forks. c
 has put down its left one and woken b, which has the monitor (`held 3`). So c asks for it
 to put down the other fork, for which d waits. With 11 rounds all have eaten twice."
type seat = 0..3;
table = monitor;
  var taken: array [seat] of boolean; hungry: array [seat] of queue;

  function may_eat(k: seat): boolean;
  begin may_eat := not (taken[k] or taken[(k + 1) mod 4]) end;

  procedure entry take(k: seat);
  begin
    if not may_eat(k) then delay(hungry[k]);
    taken[k] := true;
    taken[(k + 1) mod 4] := true
  end;

  procedure entry put_left(k: seat);
  begin
    taken[k] := false;
    if may_eat((k + 3) mod 4) then continue(hungry[(k + 3) mod 4])
  end;

  procedure entry put_right(k: seat);
  begin
    taken[(k + 1) mod 4] := false;
    if may_eat((k + 1) mod 4) then continue(hungry[(k + 1) mod 4])
  end;

  begin end;

philosopher = process(t: table; k: seat);
  var meal: integer;
  begin
    for meal := 1 to 2 do
    begin
      t.take(k);
      display(meal);
      t.put_left(k);
      t.put_right(k)
    end
  end;

var t: table; a, b, c, d: philosopher;
begin init t, a(t, 0), b(t, 1), c(t, 2), d(t, 3) end.
