{ What the compiler evaluates: named constants, operators, functions, casts. }
program ConstantExpressions;
type
  Light = (Red, Amber, Green);
const
  Width = 3 + 4 * 5;
  Half = Width div 2;
  Wide = Width > Half;
  Star = '*';
  Two = Star + Star;
  Last = High(Light);
  Letter = Chr(Ord('A') + 2);
  Mask = $FF and not 3 or 1 shl 10;
  Least = -MaxInt - 1;
  Warm = [Red, Amber];
  Size = Length(Two + '...');
var
  a: array [1..Half] of Integer;
begin
  WriteLn(Width, ' ', Half, ' ', Wide, ' ', Two, ' ', Ord(Last), ' ', Letter, ' ', Mask, ' ', Least, ' ', Size);
  WriteLn(Low(a), ' ', High(a), ' ', Length(a), ' ', Red in Warm, ' ', Green in Warm);
  WriteLn(Odd(Width), ' ', Abs(-Width), ' ', Sqr(Half), ' ', Succ(Half), ' ', Pred(Letter), ' ', UpCase('q'));
  WriteLn(Byte(300), ' ', ShortInt(200), ' ', Ord(Light(1)), ' ', 7 mod 3 * 2 - 1, ' ', -7 div 2);
  WriteLn((3 > 2) and (2 > 1) or False, ' ', not (1 = 1), ' ', 1 in [0..3], ' ', True xor True);
end.
