"A remark is a comment."
begin
  display(1) "one"
end.
