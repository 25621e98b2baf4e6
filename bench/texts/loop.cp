"A loop of three assignments in eight processes of one type: four private steps a cycle,
 for ever.

   cpm run loop.cp --rounds 11 --turn 10000

 It shows what a step of plain arithmetic costs."
type counter = process;
  var x, y, z: integer;
  begin
    cycle x := (x + 1) mod 300; y := (x * 7 + y) mod 401; z := x - y div 2 end
  end;

var a, b, c, d, e, f, g, h: counter;

begin
  init a, b, c, d, e, f, g, h
end.
