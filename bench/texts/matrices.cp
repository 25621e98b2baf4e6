"A process that multiplies matrices whose elements are matrices, for ever, in private
 steps.

   cpm run matrices.cp --rounds 11 --turn 10000

 It shows what elements of several indices cost."
type block = array [1..4, 1..4] of integer;
matrix = array [1..3, 1..3] of block;

multiplier = process;
  var a, b, c: matrix; i, j, k, l, m, sum, passes: integer;
  begin
    cycle
      for i := 1 to 3 do
        for j := 1 to 3 do
          for k := 1 to 4 do
            for l := 1 to 4 do
            begin
              sum := i + k;
              for m := 1 to 4 do
                sum := (sum + a[i, j][k, m] * b[j, i][m, l]) mod 101;
              c[i, j][k, l] := sum
            end;
      a := b;
      b := c;
      passes := (passes + 1) mod 1000
    end
  end;

var m: multiplier;

begin
  init m
end.
