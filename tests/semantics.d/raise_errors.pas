{ The errors that are raised as exceptions, with the class that each has }
uses SysUtils;
var n: Integer; a: array[1..2] of Integer; o: TObject;
procedure P(k: Integer);
begin
  try
    case k of
      1: n := 5 div n;
      2: a[k + n + 1] := 1;
      3: n := {$Q+} MaxInt + (n + 1) {$Q-};
      4: (o as Exception).Message := 'x'
    end
  except
    on E: EDivByZero do WriteLn('200 ', E.Message);
    on E: ERangeError do WriteLn('201 ', E.Message);
    on E: EIntOverflow do WriteLn('215');
    on E: EInvalidCast do WriteLn('219')
  end
end;
begin
  o := TObject.Create;
  P(1); P(2); P(3); P(4)
end.
