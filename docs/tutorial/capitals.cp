"A process reads its input to the end, and displays it in capitals."

const em = '(:25:)';

type typist = process;
  var c: char;
  begin
    accept(c);
    while c <> em do
    begin
      if (c >= 'a') & (c <= 'z') then c := chr(ord(c) - ord('a') + ord('A'));
      display(c);
      accept(c)
    end
  end;

var t: typist;

begin init t end.
