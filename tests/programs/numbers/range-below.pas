{ Under range checks a number below a type is error 201, also one that comes from a type with as many bits. }
{$R+}
program RangeBelow;
var
  Small: Byte;
  Tiny: ShortInt;
  Half: Word;
  Short: SmallInt;
begin
  Small := 127;
  Tiny := Small;
  WriteLn(Tiny);
  Short := 32767;
  Half := Short;
  WriteLn(Half);
  Short := Small - 255;
  WriteLn(Short);
  Tiny := -1;
  {$R-}
  Half := Tiny;
  WriteLn(Half);
  {$R+}
  Half := Tiny;
  WriteLn('not reached');
end.
