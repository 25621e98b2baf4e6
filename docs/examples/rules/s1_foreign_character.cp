"A remark as in another language."
begin
  display(1) # one
end.
