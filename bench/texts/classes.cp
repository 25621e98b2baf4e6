"Sixteen processes, each with classes of its own: a tally and a generator of numbers. Each
 50th cycle a process hands its tally to a monitor and takes a new seed from another; both
 are shared by all.

   cpm run classes.cp --rounds 101 --turn 10000

 It shows what processes cost that work for themselves and share little. The first monitor
 counts what it was handed."
type tally = class;
  var total: integer;

  procedure entry add(n: integer);
  begin
    total := (total + n) mod 10000
  end;

  function entry value: integer;
  begin
    value := total
  end;

  begin
    total := 0
  end;

generator = class(first: integer);
  var number: integer;

  procedure entry restart(n: integer);
  begin
    number := n
  end;

  function entry next: integer;
  begin
    number := (number * 17 + 59) mod 1009;
    next := number
  end;

  begin
    number := first
  end;

register = monitor;
  var sum, uses: integer;

  procedure entry report(n: integer);
  begin
    sum := (sum + n) mod 10000;
    uses := (uses + 1) mod 30000
  end;

  begin
  end;

seeds = monitor;
  var seed: integer;

  procedure entry take(var n: integer);
  begin
    seed := (seed + 7) mod 1009;
    n := seed
  end;

  begin
  end;

worker = process(r: register; s: seeds; me: integer);
  var t: tally; g: generator; i, n: integer;
  begin
    init t, g(me);
    cycle
      for i := 1 to 50 do t.add(g.next);
      r.report(t.value);
      s.take(n);
      g.restart(n)
    end
  end;

var r: register; s: seeds;
  w1, w2, w3, w4, w5, w6, w7, w8, w9, w10, w11, w12, w13, w14, w15, w16: worker;

begin
  init r, s,
    w1(r, s, 1), w2(r, s, 2), w3(r, s, 3), w4(r, s, 4),
    w5(r, s, 5), w6(r, s, 6), w7(r, s, 7), w8(r, s, 8),
    w9(r, s, 9), w10(r, s, 10), w11(r, s, 11), w12(r, s, 12),
    w13(r, s, 13), w14(r, s, 14), w15(r, s, 15), w16(r, s, 16)
end.
