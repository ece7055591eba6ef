{ Odd, Sqr and Abs over numbers of both signs. }
program OddAndSquare;
var
  Number, Count: Integer;
  Tiny: ShortInt;
begin
  Count := 0;
  for Number := -5 to 5 do
  begin
    WriteLn(Number:3, Odd(Number):6, Sqr(Number):4, Abs(Number):3);
    if Odd(Number) then Inc(Count);
  end;
  WriteLn(Count);
  Tiny := -128;
  WriteLn(Abs(Tiny), ' ', Sqr(Tiny), ' ', Odd(Tiny), ' ', Odd(MaxInt), ' ', Odd(-2147483648));
  Tiny := Abs(Tiny);
  WriteLn(Tiny);
end.
