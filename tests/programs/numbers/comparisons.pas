{ The six comparisons, of Integers at their ends, Chars, Booleans and enumerations. }
program Comparisons;
type
  Light = (Red, Amber, Green);

procedure Compare(a, b: Integer);
begin
  WriteLn(a:12, b:12, a = b:6, a <> b:6, a < b:6, a > b:6, a <= b:6, a >= b:6);
end;

var
  a, b: Char;
  f, t: Boolean;
  Shown: Light;
begin
  Compare(0, 0);
  Compare(-1, 0);
  Compare(0, -1);
  Compare(MaxInt, -MaxInt - 1);
  Compare(-MaxInt - 1, MaxInt);
  Compare(-MaxInt - 1, -MaxInt);
  Compare(MaxInt, MaxInt - 1);
  a := #255; b := 'a'; f := False; t := True; Shown := Amber;
  WriteLn(a > b, ' ', a = b, ' ', b < #128, ' ', b <= 'a', ' ', a >= b);
  WriteLn(f < t, ' ', f = t, ' ', f <> t, ' ', t >= f, ' ', (f = not t) = t, ' ', f <= f);
  WriteLn(Shown = Amber, ' ', Shown < Green, ' ', Shown > Green, ' ', Shown <> Red, ' ', Red <= Shown);
end.
