{ Twenty parameters of several types and modes. }
program ManyParameters;
type
  Light = (Red, Amber, Green);
  Pair = record
    a: Byte;
    b: Integer;
  end;
  Hues = set of Light;
var
  x, y: Integer;
  b: Byte;
  p: Pair;
  c: Char;

function Mix(a: Integer; b: Byte; c: Char; d: Boolean; e: Light; f: Pair; g: Hues; h: ShortInt; i: Word; j: SmallInt;
  const k: Integer; const l: Pair; var m: Integer; var n: Byte; out o: Integer; var p: Pair; var q: Char;
  r, s: Integer; t: Boolean): Integer;
begin
  m := m + a + b;
  n := n + 1;
  o := Ord(c) + Ord(d) + Ord(e);
  p.b := f.a + l.b + p.b;
  if Green in g then q := 'G' else q := 'N';
  Mix := h + i + j + k + r * s;
  if t then Mix := -Result;
end;

begin
  x := 1; y := 2; b := 255;
  p.a := 3; p.b := 4;
  WriteLn(Mix(5, 6, 'A', True, Amber, p, [Red, Green], -1, 65535, -32768, 9, p, x, b, y, p, c, 10, 11, False));
  WriteLn(x, ' ', y, ' ', b, ' ', p.a, ' ', p.b, ' ', c);
  WriteLn(Mix(500, 250, 'a', False, Green, p, [Amber], -128, 0, 32767, -9, p, y, b, x, p, c, -10, 11, True));
  WriteLn(x, ' ', y, ' ', b, ' ', p.a, ' ', p.b, ' ', c);
end.
