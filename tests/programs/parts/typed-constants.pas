{ Typed constants and variables with first values: numbers, Chars, enumerations, sets, arrays and records within one another. }
program TypedConstants;
type
  Light = (Red, Amber, Green);
  Point = record
    x, y: SmallInt;
  end;
  Triangle = array [1..3] of Point;
  Figure = record
    Corners: Triangle;
    Colour: Light;
    Filled: Boolean;
  end;
const
  Days: array [1..12] of Byte = (31, 28, 31, 30, 31, 30, 31, 31, 30, 31, 30, 31);
  Names: array [Light] of array [1..2] of Char = (('r', 'd'), ('a', 'r'), ('g', 'n'));
  First: Figure = (Corners: ((x: -1; y: 2), (x: 3; y: -4), (x: 32767; y: -32768)); Colour: Green; Filled: True);
  Width: Integer = 3 * 4;
  Warm: set of Light = [Red, Amber];
var
  Second: Figure = (Corners: ((x: 1; y: 1), (x: 2; y: 2), (x: 3; y: 3)); Colour: Amber; Filled: False);
  Count: Word = 65535;
  Mark: Char = '!';
  Unset: Integer;
  k, Sum: Integer;
begin
  Sum := 0;
  for k := Low(Days) to High(Days) do Sum := Sum + Days[k];
  WriteLn(Sum, ' ', Names[Red, 1], Names[Amber][2], Names[Green, 2], ' ', Width, ' ', Amber in Warm, ' ', Green in Warm);
  for k := 1 to 3 do Write(First.Corners[k].x, ',', First.Corners[k].y, ' ');
  WriteLn(Ord(First.Colour), ' ', First.Filled);
  Second.Corners[2] := First.Corners[3];
  Inc(Count);
  for k := 1 to 3 do Write(Second.Corners[k].x, ',', Second.Corners[k].y, ' ');
  WriteLn(Ord(Second.Colour), ' ', Second.Filled, ' ', Count, ' ', Mark, ' ', Unset);
end.
