{ not as Free Pascal: there the processor's trap is error 200. The least number by -1 wraps, and is error 215 when checked. }
program OverflowDivide;
var
  Number, Minus: Integer;
begin
  Number := -2147483648;
  Minus := -1;
  WriteLn(Number div Minus);
  WriteLn(Number mod Minus);
  {$Q+}
  WriteLn(Number mod Minus);
  WriteLn(Number div Minus);
  WriteLn('not reached');
end.
