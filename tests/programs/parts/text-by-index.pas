{ A Char of a constant text by its index, which counts from 1. }
program TextByIndex;
const
  Digits = '0123456789ABCDEF';
var
  n, k: Integer;

procedure Hex(n: Integer);
var
  k: Integer;
begin
  for k := 7 downto 0 do
    Write(Digits[n shr (4 * k) and 15 + 1]);
  WriteLn;
end;

begin
  Hex(0);
  Hex(-1);
  Hex(305419896);
  Hex(-2147483648);
  for k := 1 to 5 do Write('hello'[6 - k]);
  n := 3;
  WriteLn(' ', 'abc'[n], 'abc'[1], Digits[Length(Digits)]);
end.
