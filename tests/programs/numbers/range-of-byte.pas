{ Under range checks a number past the end of Byte is error 201. }
{$R+}
program RangeOfByte;
var
  Wide: Integer;
  Narrow: Byte;
begin
  Wide := 255;
  Narrow := Wide;
  WriteLn(Narrow);
  Narrow := Low(Byte);
  WriteLn(Narrow);
  Wide := 256;
  {$R-}
  Narrow := Wide;
  {$R+}
  WriteLn(Narrow);
  Narrow := Wide;
  WriteLn('not reached');
end.
