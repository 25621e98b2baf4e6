"Two processes of one type, each with a variable of its own, which no other can see.

   cpm run squares.cp --rounds 5 --turn 4

 A turn has at most four steps: each statement is a step, and so is each time that a
 cycle begins anew. The square of 256 is above 32767: that is fault 3, and it ends
 the process alone. To start a second time a process that was started is fault 7."

type squarer = process;
  var x: integer;
  begin
    x := 2;
    cycle display(x); x := x * x end
  end;

var a, b: squarer;

begin
  init a, b;
  init a
end.
