{ A number that goes to a parameter or result of a smaller type keeps its low bits, by the switch R at the argument. }
program ArgumentsKeepLowBits;

function Small(b: Byte): ShortInt;
begin
  Small := b;
end;

function Half(const w: Word): SmallInt;
begin
  Half := w;
end;

begin
  WriteLn(Small(1), ' ', Small(200), ' ', Small(256), ' ', Small(-1), ' ', Small(1000));
  WriteLn(Half(1), ' ', Half(40000), ' ', Half(-1), ' ', Half(65536 + 7));
end.
