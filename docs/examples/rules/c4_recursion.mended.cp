"A function that multiplies in a loop."
function factorial(n: integer): integer;
  var result, i: integer;
begin
  result := 1;
  for i := 2 to n do result := result * i;
  factorial := result
end;
begin
  display(factorial(5))
end.
