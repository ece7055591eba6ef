{ Inc and Dec of each ordinal type, by one and by more, to both ends and past those of predefined integers. }
program Increments;
type
  Light = (Red, Amber, Green);
var
  Small: Byte;
  Tiny: ShortInt;
  Half: Word;
  Short: SmallInt;
  Wide: Integer;
  Letter: Char;
  Shown: Light;
  Truth: Boolean;
begin
  Small := 255; Tiny := 127; Half := 65535; Short := 32767; Wide := MaxInt;
  Inc(Small); Inc(Tiny); Inc(Half); Inc(Short); Inc(Wide);
  WriteLn(Small, ' ', Tiny, ' ', Half, ' ', Short, ' ', Wide);
  Dec(Small); Dec(Tiny); Dec(Half); Dec(Short); Dec(Wide);
  WriteLn(Small, ' ', Tiny, ' ', Half, ' ', Short, ' ', Wide);
  Inc(Small, 300); Inc(Tiny, -300); Inc(Half, 70000); Dec(Short, 70000); Dec(Wide, -5);
  WriteLn(Small, ' ', Tiny, ' ', Half, ' ', Short, ' ', Wide);
  Letter := 'a'; Inc(Letter, 25); Write(Letter); Dec(Letter); WriteLn(Letter);
  Shown := Red; Inc(Shown); Inc(Shown); Write(Ord(Shown)); Dec(Shown, 2); WriteLn(Ord(Shown));
  Truth := False; Inc(Truth); Write(Truth); Dec(Truth); WriteLn(Truth);
end.
