"A process that fills an array of 60 records and sorts it by insertion, for ever, in
 private steps.

   cpm run records.cp --rounds 11 --turn 10000

 It shows what records in an array cost that is a `var` parameter."
type row = record key, weight: integer end;
table = array [0..60] of row;

sorter = process;
  var rows: table; seed, passes: integer;

  procedure refill(var t: table);
  var i: integer;
  begin
    for i := 1 to 60 do
    begin
      seed := (seed * 17 + 59) mod 1009;
      t[i].key := seed;
      t[i].weight := i
    end
  end;

  "The key at 0 is below all others and ends each search."
  procedure sort(var t: table);
  var i, j: integer; r: row;
  begin
    t[0].key := -1;
    for i := 2 to 60 do
    begin
      r := t[i];
      j := i - 1;
      while t[j].key > r.key do
      begin
        t[j + 1] := t[j];
        j := j - 1
      end;
      t[j + 1] := r
    end
  end;

  begin
    cycle
      refill(rows);
      sort(rows);
      passes := (passes + 1) mod 1000
    end
  end;

var s: sorter;

begin
  init s
end.
