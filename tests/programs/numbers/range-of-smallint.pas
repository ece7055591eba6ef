{ Under range checks a number past the end of SmallInt is error 201. }
{$R+}
program RangeOfSmallInt;
var
  Wide: Integer;
  Narrow: SmallInt;
begin
  Wide := 32767;
  Narrow := Wide;
  WriteLn(Narrow);
  Narrow := Low(SmallInt);
  WriteLn(Narrow);
  Wide := 32768;
  {$R-}
  Narrow := Wide;
  {$R+}
  WriteLn(Narrow);
  Narrow := Wide;
  WriteLn('not reached');
end.
