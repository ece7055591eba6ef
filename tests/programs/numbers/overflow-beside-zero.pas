{ not as Free Pascal: it drops what stands beside `and 0`, with its overflow. Each operand is evaluated, and its overflow is error 215 under overflow checks. }
program OverflowBesideZero;
{$Q+}
var
  I: Integer;
begin
  I := MaxInt;
  WriteLn(I and 0);
  WriteLn((I + 1) and 0);
end.
