{ The least number has no opposite: a sign in front of it is error 215 under overflow checks. }
program OverflowNegate;
var
  Number: Integer;
begin
  Number := -2147483648;
  WriteLn(-Number);
  {$Q+}
  WriteLn('checked');
  WriteLn(-Number);
  WriteLn('not reached');
end.
