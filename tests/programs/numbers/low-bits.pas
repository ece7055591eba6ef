{ Without range checks a store to a predefined integer type keeps the low bits. }
program LowBits;
var
  Wide, k: Integer;
  Tiny: ShortInt;
  Small: Byte;
  Short: SmallInt;
  Half: Word;
begin
  Wide := -65537;
  for k := 1 to 13 do
  begin
    Tiny := Wide;
    Small := Wide;
    Short := Wide;
    Half := Wide;
    WriteLn(Wide:12, Tiny:6, Small:5, Short:8, Half:7);
    case k of
      1: Wide := -32769;
      2: Wide := -129;
      3: Wide := -128;
      4: Wide := -1;
      5: Wide := 127;
      6: Wide := 128;
      7: Wide := 255;
      8: Wide := 256;
      9: Wide := 32768;
      10: Wide := 65535;
      11: Wide := 65536;
      12: Wide := MaxInt;
    end;
  end;
  Small := 200;
  Tiny := Small;
  Half := Tiny;
  Short := Half;
  WriteLn(Tiny, ' ', Half, ' ', Short);
end.
