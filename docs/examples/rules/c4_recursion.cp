"A function that calls itself."
function factorial(n: integer): integer;
begin
  if n = 0
  then factorial := 1
  else factorial := n * factorial(n - 1)
end;
begin
  display(factorial(5))
end.
