{ A sum past the greatest number is error 215 under overflow checks. }
program OverflowAdd;
var
  Number, One: Integer;
begin
  Number := MaxInt;
  One := 1;
  WriteLn(Number + One);
  {$Q+}
  WriteLn('checked');
  WriteLn(Number + One);
  WriteLn('not reached');
end.
