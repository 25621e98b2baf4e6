"Two writers and a log that both of them use. The one works long before each note."

type log = monitor;
  var line: array [1..4] of char; used: integer;

  procedure entry note(c: char);
  begin
    used := used + 1;
    line[used] := c
  end;

  begin used := 0 end;

writer = process(book: log; letter: char; work: integer);
  var n, i: integer;
  begin
    for n := 1 to 2 do
    begin
      for i := 1 to work do;
      book.note(letter)
    end
  end;

var book: log; a, b: writer;

begin init book, a(book, 'a', 12), b(book, 'b', 1) end.
