"The Fibonacci numbers up to the last that an integer holds.

   cpm run fibonacci.cp --rounds 2

 The 23rd is 28657. The next would be 46368, which is above 32767: fault 3.
 A turn has 100 steps if no other number is told, so the last numbers come in round 2."

var last, this, next: integer;

begin
  this := 1;
  cycle
    display(this);
    next := last + this;
    last := this;
    this := next
  end
end.
