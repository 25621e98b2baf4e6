"Calls five deep: a process that calls functions in expressions, for ever, in private
 steps. Each function has value parameters and calls the ones before it.

   cpm run calls.cp --rounds 11 --turn 10000

 It shows what calls, value parameters and results cost."
type caller = process;
  var x, y: integer;

  function wrap(n: integer): integer;
  begin
    wrap := n mod 1000
  end;

  function twice(n: integer): integer;
  begin
    twice := wrap(n + n)
  end;

  function sum(a, b: integer): integer;
  begin
    sum := wrap(a + twice(b))
  end;

  function mix(a, b: integer): integer;
  begin
    mix := sum(a, b) + wrap(b + 7)
  end;

  function blend(a, b: integer): integer;
  begin
    blend := mix(sum(a, 1), b)
  end;

  begin
    cycle
      x := blend(x, y);
      y := (y + 1) mod 300
    end
  end;

var c: caller;

begin
  init c
end.
