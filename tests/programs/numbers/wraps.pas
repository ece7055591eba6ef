{ Without overflow checks a result keeps its low 32 bits. }
program Wraps;
const
  Least = -2147483648;
var
  Top, Bottom, Two: Integer;
begin
  Top := MaxInt;
  Bottom := Least;
  Two := 2;
  WriteLn(Top + 1);
  WriteLn(Bottom - 1);
  WriteLn(Top * Two);
  WriteLn(Bottom * Two);
  WriteLn(Top * Top);
  WriteLn(Bottom * Bottom);
  WriteLn(-Bottom);
  WriteLn(Bottom * -1);
  WriteLn(Top + Top + Two);
  WriteLn(Bottom + Bottom);
  WriteLn(Top - Bottom);
  WriteLn(Bottom - Top);
  WriteLn(Sqr(Top), ' ', Sqr(Bottom), ' ', Sqr(Two * 32768), ' ', Sqr(Two * 23171));
  WriteLn(Abs(Top), ' ', Abs(-Top));
end.
