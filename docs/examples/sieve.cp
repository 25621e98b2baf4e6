"Sieves in a row that find primes, each a process, joined by buffers of one number.

   cpm run sieve.cp --rounds 12

 A sieve keeps the first number that it gets, which is a prime, and hands on to the right
 those that its prime doesn't divide. Up to 24 all that comes through the sieves of 2 and 3
 is prime: the least number that comes through and isn't is 5 times 5.

 In the report `two` and `three` have displayed their primes, and `rest` what came through
 both. All three wait for ever for a next number, for s has ended after the 7. With 8
 rounds s has been woken, and its 7 isn't in a yet: `held 2` says that s has the monitor."
type buffer = monitor;
  var slot: integer; full: boolean; sender, receiver: queue;

  procedure entry put(n: integer);
  begin
    if full then delay(sender);
    slot := n; full := true;
    continue(receiver)
  end;

  procedure entry get(var n: integer);
  begin
    if not full then delay(receiver);
    n := slot; full := false;
    continue(sender)
  end;

  begin full := false end;

source = process(right: buffer);
  var n: integer;
  begin
    for n := 2 to 7 do right.put(n)
  end;

sieve = process(left, right: buffer);
  var prime, n: integer;
  begin
    left.get(prime);
    display(prime);
    cycle
      left.get(n);
      if n mod prime <> 0 then right.put(n)
    end
  end;

sink = process(left: buffer);
  var n: integer;
  begin
    cycle left.get(n); display(n) end
  end;

var a, b, c: buffer; s: source; two, three: sieve; rest: sink;
begin
  init a, b, c, s(a), two(a, b), three(b, c), rest(c)
end.
