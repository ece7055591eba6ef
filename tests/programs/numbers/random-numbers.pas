{ A linear congruential generator and a shift generator rest on sums and products that wrap. }
program RandomNumbers;
var
  Seed, Bits, Sum, k: Integer;
begin
  Seed := 1;
  Bits := 1;
  Sum := 0;
  for k := 1 to 1000 do
  begin
    Seed := Seed * 1664525 + 1013904223;
    Bits := Bits xor Bits shl 13;
    Bits := Bits xor Bits shr 17;
    Bits := Bits xor Bits shl 5;
    Sum := Sum xor (Seed + Bits);
    if k mod 200 = 0 then WriteLn(Seed:12, Bits:12, Sum:12);
  end;
end.
