"A day for which there is no arm."
var day: integer;
begin
  day := 3;
  case day of
    1: display('m');
    2: display('t')
  end
end.
