program p;
begin
  WriteLn(1 + 2);
end.
