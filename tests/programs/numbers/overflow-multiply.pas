{ A product past the greatest number is error 215 under overflow checks. }
program OverflowMultiply;
var
  Number, One: Integer;
begin
  Number := 65536;
  One := 32768;
  WriteLn(Number * One);
  {$Q+}
  WriteLn('checked');
  WriteLn(Number * One);
  WriteLn('not reached');
end.
