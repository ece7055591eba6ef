{ A var parameter stands for the argument's place, of each type and in each kind of place. }
program VariableParameters;
type
  Light = (Red, Amber, Green);
  Point = record
    x, y: Integer;
  end;
  Row = array [0..2] of Point;
  Hues = set of Light;
var
  n: Integer;
  b: Byte;
  c: Char;
  l: Light;
  h: Hues;
  r: Row;

procedure Change(var n: Integer);
begin
  n := n * 10 + 1;
end;

procedure Each(var b: Byte; var c: Char; var l: Light; var h: Hues; var p: Point);
begin
  Inc(b); Inc(c); Inc(l);
  Include(h, l);
  Change(p.x);
  p.y := p.x;
end;

begin
  n := 1; b := 255; c := 'a'; l := Red; h := [Red];
  r[0].x := 1; r[1].x := 2; r[2].x := 3;
  Change(n);
  Change(n);
  Change(r[1].x);
  Each(b, c, l, h, r[2]);
  WriteLn(n, ' ', b, ' ', c, ' ', Ord(l), ' ', Red in h, ' ', Amber in h, ' ', Green in h);
  for n := 0 to 2 do WriteLn(r[n].x, ' ', r[n].y);
end.
