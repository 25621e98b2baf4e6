"The initial process and another one each read a character of their own input."

type typist = process;
  var c: char;
  begin accept(c); display(c) end;

var first: char; t: typist;

begin
  init t;
  accept(first);
  display(first)
end.
