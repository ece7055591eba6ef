{ Under range checks a number past the end of Word is error 201. }
{$R+}
program RangeOfWord;
var
  Wide: Integer;
  Narrow: Word;
begin
  Wide := 65535;
  Narrow := Wide;
  WriteLn(Narrow);
  Narrow := Low(Word);
  WriteLn(Narrow);
  Wide := 65536;
  {$R-}
  Narrow := Wide;
  {$R+}
  WriteLn(Narrow);
  Narrow := Wide;
  WriteLn('not reached');
end.
