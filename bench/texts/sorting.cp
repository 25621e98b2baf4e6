"A process that fills an array of 100 integers and sorts it by insertion, for ever, in
 private steps.

   cpm run sorting.cp --rounds 11 --turn 10000

 It shows what loops and elements of an array cost, also through a `var` parameter."
type table = array [0..100] of integer;

sorter = process;
  var numbers: table; seed, passes: integer;

  procedure refill;
  var i: integer;
  begin
    for i := 1 to 100 do
    begin
      seed := (seed * 17 + 59) mod 1009;
      numbers[i] := seed
    end
  end;

  "The number at 0 is below all others and ends each search."
  procedure sort(var t: table);
  var i, j, x: integer;
  begin
    t[0] := -1;
    for i := 2 to 100 do
    begin
      x := t[i];
      j := i - 1;
      while t[j] > x do
      begin
        t[j + 1] := t[j];
        j := j - 1
      end;
      t[j + 1] := x
    end
  end;

  begin
    cycle
      refill;
      sort(numbers);
      passes := (passes + 1) mod 1000
    end
  end;

var s: sorter;

begin
  init s
end.
