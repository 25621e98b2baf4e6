"Quotients are cut towards zero, and a remainder has the sign of the dividend.

   cpm run division.cp --rounds 1

 Every variable starts at 0. To divide by 0 is fault 4: the process keeps its
 variables as they are, and makes no more steps."

var quotient, remainder, divisor: integer;

begin
  quotient := (-7) div 2;    "-3, and not -4"
  remainder := (-7) mod 2;   "-1, and not 1"
  display(quotient);
  display(remainder);
  display(7 div divisor)
end.
