"Two processes of one type square a number of their own.

   cpm run squarers.cp --rounds 5 --turn 4

 256 times 256 is more than an integer holds: that is fault 3."

type squarer = process;
  var x: integer;
  begin x := 2; cycle display(x); x := x * x end end;
var a, b: squarer;
begin init a, b end.
