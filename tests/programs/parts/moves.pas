{ Wholes of many words and bytes are copied, and become zeros, just as they are: what stands beside them stays, wherever they begin. }
program Moves;
type
  Nine = array [1..9] of Integer;
  Sixteen = array [1..16] of Integer;
  Long = array [1..39] of Integer;
  Line = array [1..31] of Char;
  Page = array [1..67] of Char;
  Words = record
    Before: Integer;
    Small: Nine;
    Between: Integer;
    Whole: Sixteen;
    Among: Integer;
    Large: Long;
    Behind: Integer;
  end;
  Texts = record
    Before: Char;
    Small: Line;
    Between: Char;
    Large: Page;
    Behind: Char;
  end;
var
  a, b: Words;
  s, t: Texts;
  p, q: Page;
  k: Integer;

procedure Fill(var w: Words; Seed: Integer);
var
  k: Integer;
begin
  w.Before := Seed;
  w.Between := Seed + 1;
  w.Among := Seed + 2;
  w.Behind := Seed + 3;
  for k := 1 to 9 do w.Small[k] := Seed * k;
  for k := 1 to 16 do w.Whole[k] := Seed * k + 1;
  for k := 1 to 39 do w.Large[k] := Seed * k + 2;
end;

procedure Letters(var t: Texts; First: Integer);
var
  k: Integer;
begin
  t.Before := '<';
  t.Between := '|';
  t.Behind := '>';
  for k := 1 to 31 do t.Small[k] := Chr(First + k mod 23);
  for k := 1 to 67 do t.Large[k] := Chr(First + k mod 19);
end;

procedure Show(const w: Words);
var
  k, Small, Whole, Large: Integer;
begin
  Small := 0;
  for k := 1 to 9 do Small := Small * 3 + w.Small[k];
  Whole := 0;
  for k := 1 to 16 do Whole := (Whole * 3 + w.Whole[k]) mod 1000003;
  Large := 0;
  for k := 1 to 39 do Large := (Large * 3 + w.Large[k]) mod 1000003;
  WriteLn(w.Before, ' ', Small, ' ', w.Between, ' ', Whole, ' ', w.Among, ' ', Large, ' ', w.Behind);
end;

procedure Print(const t: Texts);
var
  k: Integer;
begin
  Write(t.Before);
  for k := 1 to 31 do Write(t.Small[k]);
  Write(t.Between);
  for k := 1 to 67 do Write(t.Large[k]);
  WriteLn(t.Behind);
end;

{ A copy of its own, which it changes. }
function Last(l: Long): Integer;
begin
  Result := l[39];
  l[39] := 0;
  l[1] := 0;
end;

procedure Fresh(Seed: Integer);
var
  Zeros: array [1..19] of Integer = (0, 0, 0, 0, 0, 0, 0, 0, 0, 0, 0, 0, 0, 0, 0, 0, 0, 0, 0);
  k, Sum: Integer;
begin
  Sum := 0;
  for k := 1 to 19 do
  begin
    Sum := Sum + Zeros[k];
    Zeros[k] := Seed;
  end;
  WriteLn(Seed, ' ', Sum, ' ', Zeros[1] + Zeros[19]);
end;

begin
  Fill(a, 5);
  Fill(b, 7);
  Show(a);
  a.Small := b.Small;
  Show(a);
  a.Whole := b.Whole;
  Show(a);
  a.Large := b.Large;
  Show(a);
  a := b;
  a.Large := a.Large;
  Show(a);
  Show(b);
  WriteLn(Last(b.Large), ' ', b.Large[1], ' ', b.Large[39]);
  Letters(s, 65);
  Letters(t, 97);
  Print(s);
  s.Small := t.Small;
  Print(s);
  s.Large := t.Large;
  Print(s);
  p := t.Large;
  q := p;
  for k := 1 to 67 do q[k] := Chr(Ord(q[k]) - 32);
  t.Large := q;
  Print(t);
  q := p;
  s.Large := q;
  Print(s);
  t := s;
  Print(t);
  for k := 3 to 4 do Fresh(k);
end.
