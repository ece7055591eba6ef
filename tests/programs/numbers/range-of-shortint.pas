{ Under range checks a number past the end of ShortInt is error 201. }
{$R+}
program RangeOfShortInt;
var
  Wide: Integer;
  Narrow: ShortInt;
begin
  Wide := 127;
  Narrow := Wide;
  WriteLn(Narrow);
  Narrow := Low(ShortInt);
  WriteLn(Narrow);
  Wide := 128;
  {$R-}
  Narrow := Wide;
  {$R+}
  WriteLn(Narrow);
  Narrow := Wide;
  WriteLn('not reached');
end.
