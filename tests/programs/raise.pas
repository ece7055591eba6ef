program p;
begin
  WriteLn('before');
  raise nil;
end.
