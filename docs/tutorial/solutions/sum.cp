"The sum of the numbers in the input, with a blank after each but the last."

const em = '(:25:)';

type adder = process;
  var c: char; number, sum: integer;
  begin
    repeat
      number := 0;
      accept(c);
      while (c >= '0') & (c <= '9') do
      begin
        number := 10 * number + ord(c) - ord('0');
        accept(c)
      end;
      sum := sum + number
    until c = em;
    display(sum)
  end;

var a: adder;

begin init a end.
