{ CRC-32 of 65,536 bytes, by a table that it makes first. }
program Crc;
const
  Last = 65535;
var
  Table: array [Byte] of Integer;
  Bytes: array [0..Last] of Byte;

procedure Prepare;
var
  k, Bit, n: Integer;
begin
  for k := 0 to 255 do
  begin
    n := k;
    for Bit := 1 to 8 do
      if Odd(n) then n := n shr 1 xor -306674912 else n := n shr 1;
    Table[k] := n;
  end;
  n := 1;
  for k := 0 to Last do
  begin
    n := n * 69069 + 1;
    Bytes[k] := n shr 24;
  end;
end;

function Sum(First, Count: Integer): Integer;
var
  k, n: Integer;
begin
  n := -1;
  for k := First to First + Count - 1 do n := Table[(n xor Bytes[k]) and 255] xor n shr 8;
  Sum := not n;
end;

var
  k: Integer;
begin
  Prepare;
  for k := 0 to 3 do WriteLn(Sum(k * 16384, 16384):12);
  WriteLn(Sum(0, 65536):12);
end.
