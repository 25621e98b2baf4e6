"A process is started in one round and has its first turn in the next.

   cpm run seven.cp --rounds 2

 In round 1 the initial process asks for the start of a, which the kernel grants
 at the end of its turn. In round 2 a displays 7, and both processes end."

type seven = process;
  begin display(7) end;

var a: seven;

begin init a end.
