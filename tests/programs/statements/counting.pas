{ for counts up and down, over each ordinal type, and not at all where the bounds are the other way round. }
program Counting;
type
  Light = (Red, Amber, Green);
  Digit = 0..9;
var
  k: Integer;
  b: Byte;
  t: ShortInt;
  c: Char;
  f: Boolean;
  s: Light;
  d: Digit;
begin
  for k := -2 to 2 do Write(k, ' ');
  for k := 2 downto -2 do Write(k, ' ');
  WriteLn;
  for k := 1 to 0 do Write('never');
  for k := 0 downto 1 do Write('never');
  for k := 5 to 5 do Write('once ');
  for k := 5 downto 5 do WriteLn('once');
  for b := 250 to 255 do Write(b, ' ');
  for b := 3 downto 0 do Write(b, ' ');
  WriteLn;
  for t := -128 to -126 do Write(t, ' ');
  for t := 125 to 127 do Write(t, ' ');
  WriteLn;
  for c := 'a' to 'e' do Write(c);
  for c := 'e' downto 'a' do Write(c);
  for f := False to True do Write(' ', f);
  for s := Low(Light) to High(Light) do Write(' ', Ord(s));
  for s := Green downto Red do Write(' ', Ord(s));
  for d := 7 to 9 do Write(' ', d);
  WriteLn;
end.
