{ not as Free Pascal: it counts products of types without a sign without one. Here all integers are counted in 32 bits with a sign. }
program ProductOfWords;
var
  Half: Word;
  Small: Byte;
begin
  Half := 65535;
  Small := 255;
  WriteLn(Half * Half);
  WriteLn(Half * Small * Small);
  WriteLn(Half * Half < 0, ' ', Half * Half div 2, ' ', Half * Half shr 1);
end.
