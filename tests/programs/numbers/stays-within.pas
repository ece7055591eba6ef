{ Under overflow checks what comes up to the ends, and no further, is no error. }
{$Q+}
program StaysWithin;
const
  Least = -2147483648;
var
  Top, Bottom, One: Integer;
begin
  Top := MaxInt;
  Bottom := Least;
  One := 1;
  WriteLn(Top - 1 + One);
  WriteLn(Bottom + 1 - One);
  WriteLn(-Top - One);
  WriteLn(-(Bottom + One));
  WriteLn(Bottom * One, ' ', Top * One, ' ', Top * -One);
  WriteLn(Bottom div One, ' ', Top div -One, ' ', Bottom div 2);
  WriteLn(46340 * (46340 * One), ' ', Sqr(46340 * One), ' ', Sqr(-46340 * One));
  WriteLn(65536 * (-32768 * One));
  WriteLn(Bottom + Top, ' ', Top + Bottom, ' ', Bottom - Bottom, ' ', Top - Top);
  Inc(Bottom, Top);
  WriteLn(Bottom);
  Dec(Top, MaxInt);
  WriteLn(Top);
  WriteLn(Abs(-MaxInt - Top), ' ', Abs(Top));
end.
