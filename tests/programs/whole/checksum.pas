{ The checks CRC-32 and Adler-32 and a hash, of a table of bytes. }
program Checksum;
const
  Last = 255;
var
  Bytes: array [0..Last] of Byte;
  Table: array [Byte] of Integer;
  k, Bit, Crc, a, b, Hash: Integer;
begin
  for k := 0 to Last do Bytes[k] := k * k xor k;
  for k := 0 to 255 do
  begin
    Crc := k;
    for Bit := 1 to 8 do
      if Odd(Crc) then Crc := Crc shr 1 xor -306674912 else Crc := Crc shr 1;
    Table[k] := Crc;
  end;
  Crc := -1;
  a := 1;
  b := 0;
  Hash := -2128831035;
  for k := 0 to Last do
  begin
    Crc := Table[(Crc xor Bytes[k]) and 255] xor Crc shr 8;
    a := (a + Bytes[k]) mod 65521;
    b := (b + a) mod 65521;
    Hash := (Hash xor Bytes[k]) * 16777619;
  end;
  WriteLn(not Crc, ' ', b shl 16 or a, ' ', Hash);
end.
