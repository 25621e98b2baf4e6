begin
  display(1) "one
end.
