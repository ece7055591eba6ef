{ Operands of every integer type are counted with in 32 bits. }
program NarrowOperands;
var
  Small: Byte;
  Tiny: ShortInt;
  Short: SmallInt;
  Half: Word;
begin
  Small := 200;
  Tiny := -128;
  Short := -32768;
  Half := 65535;
  WriteLn(Small + Small, ' ', Small * Small, ' ', Tiny - Small, ' ', 0 - Half);
  WriteLn(Half + 1, ' ', Half * 2, ' ', Short * Half, ' ', Tiny * Tiny);
  WriteLn(-Tiny, ' ', -Short, ' ', -Small, ' ', Abs(Tiny), ' ', Abs(Short), ' ', Sqr(Short), ' ', Sqr(Small));
  WriteLn(Half * Tiny * 4, ' ', Half * 300, ' ', Small * Small * Small);
  WriteLn(Small div Tiny, ' ', Small mod Tiny, ' ', Half div Short, ' ', Half mod Short);
  WriteLn(Small - Half < 0, ' ', Tiny < Small, ' ', Short = -Half - 1 + 32768, ' ', Half > Short);
  Small := Small + Small;
  Tiny := Tiny - 1;
  Half := Half + Half;
  Short := Short - 1;
  WriteLn(Small, ' ', Tiny, ' ', Half, ' ', Short);
end.
