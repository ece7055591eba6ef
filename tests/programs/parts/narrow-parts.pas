{ Parts of one, two and four bytes lie side by side, and a store to one leaves its neighbours alone. }
program NarrowParts;
type
  Mixed = packed record
    a: Byte;
    b: Word;
    c: ShortInt;
    d: Integer;
    e: Boolean;
    f: SmallInt;
    g: Char;
  end;
var
  m: array [1..3] of Mixed;
  Bytes: array [0..9] of Byte;
  Words: array [0..4] of SmallInt;
  k: Integer;
begin
  for k := 1 to 3 do
  begin
    m[k].a := 255; m[k].b := 65535; m[k].c := -1; m[k].d := -1; m[k].e := True; m[k].f := -1; m[k].g := #255;
  end;
  m[2].a := 0; m[2].c := 0; m[2].e := False; m[2].g := 'x';
  for k := 1 to 3 do
    WriteLn(m[k].a, ' ', m[k].b, ' ', m[k].c, ' ', m[k].d, ' ', m[k].e, ' ', m[k].f, ' ', Ord(m[k].g));
  m[2].b := 0; m[2].d := 0; m[2].f := 0;
  WriteLn(m[2].a, m[2].b, m[2].c, m[2].d, m[2].f, ' ', m[1].f, m[3].a);
  for k := 0 to 9 do Bytes[k] := k * 77;
  for k := 0 to 4 do Words[k] := Bytes[2 * k] * 256 + Bytes[2 * k + 1];
  Bytes[5] := 300;
  Words[2] := 70000;
  for k := 0 to 9 do Write(Bytes[k], ' ');
  for k := 0 to 4 do Write(Words[k], ' ');
  WriteLn;
end.
