"A sign that isn't told of zero."
function sign(n: integer): integer;
begin
  if n > 0 then sign := 1;
  if n < 0 then sign := -1
end;
begin
  display(sign(5));
  display(sign(0))
end.
