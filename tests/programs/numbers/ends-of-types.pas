{ Low and High of ordinal types, of values and of arrays; Length. }
program EndsOfTypes;
type
  Light = (Red, Amber, Green);
  Digit = 0..9;
  Vowel = 'a'..'e';
  Warm = Red..Amber;
  Grid = array [-2..2, Light] of Word;
var
  g: Grid;
  d: Digit;
  w: Warm;
  Row: array ['x'..'z'] of Boolean;
begin
  WriteLn(Low(ShortInt), ' ', High(ShortInt), ' ', Low(Byte), ' ', High(Byte), ' ', Low(SmallInt), ' ', High(SmallInt), ' ', Low(Word), ' ', High(Word));
  WriteLn(Low(Integer), ' ', High(Integer), ' ', Low(Boolean), ' ', High(Boolean), ' ', Ord(Low(Char)), ' ', Ord(High(Char)));
  d := 5;
  w := Amber;
  WriteLn(Ord(High(Light)), ' ', Low(Digit), ' ', High(d), ' ', High(Vowel), ' ', Ord(High(w)));
  WriteLn(Low(g), ' ', High(g), ' ', Length(g), ' ', Ord(Low(g[0])), ' ', Ord(High(g[0])), ' ', Length(g[0]), ' ', High(Grid));
  WriteLn(Low(Row), ' ', High(Row), ' ', Length(Row), ' ', Length('four'));
  g[High(g), High(g[0])] := 9;
  WriteLn(g[2, Green]);
end.
