{ Succ and Pred of every kind of ordinal type. }
program Neighbours;
type
  Light = (Red, Amber, Green);
  Digit = 0..9;
  Warm = Red..Amber;
var
  Shown: Light;
  Number: Digit;
  Letter: Char;
  Tint: Warm;
  Small: Byte;
  Wide: Integer;
begin
  Shown := Amber;
  WriteLn(Ord(Succ(Shown)), Ord(Pred(Shown)), Ord(Succ(Pred(Shown))));
  Number := 5;
  WriteLn(Succ(Number), Pred(Number));
  Letter := 'b';
  WriteLn(Succ(Letter), Pred(Letter), Succ(Succ(Letter)));
  WriteLn(Succ(False), ' ', Pred(True), ' ', Succ('a'), ' ', Pred(0), ' ', Succ(-1));
  Tint := Red;
  WriteLn(Ord(Succ(Tint)));
  Small := 254;
  WriteLn(Succ(Small), ' ', Pred(Small));
  Wide := -1;
  WriteLn(Succ(Wide), ' ', Pred(Wide));
end.
