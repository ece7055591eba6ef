{ and, or, xor and not of integers go bit by bit, in 32 bits. }
program Bits;
var
  a, b: Integer;
  Small: Byte;
  Tiny: ShortInt;
begin
  a := $0F0F5A5A;
  b := -256;
  WriteLn(a and b, ' ', a or b, ' ', a xor b, ' ', not a, ' ', not b);
  Small := %10101010;
  Tiny := &17;
  WriteLn(Small and Tiny, ' ', Small or Tiny, ' ', Small xor Tiny);
  Tiny := -1;
  WriteLn(Small and Tiny, ' ', Small or Tiny, ' ', Small xor Tiny);
  WriteLn(a and not a, ' ', a or not a, ' ', a xor a, ' ', not (a and b) xor (not a or not b));
  WriteLn(a and $FF or b and $F00 xor a);
  WriteLn(not 0, ' ', not -1, ' ', not MaxInt, ' ', MaxInt xor -1);
end.
