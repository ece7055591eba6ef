{ Functions give records, arrays, sets, enumerations, Chars and Booleans; a part of a result can be taken. }
program WholeResults;
type
  Light = (Red, Amber, Green);
  Point = record
    x, y: Integer;
  end;
  Row = array [1..4] of Integer;
  Small = set of 0..31;
var
  p: Point;
  r: Row;

function MakePoint(x, y: Integer): Point;
begin
  Result.x := x;
  Result.y := y;
end;

function Counted(First: Integer): Row;
var
  k: Integer;
begin
  for k := 1 to 4 do Result[k] := First + k - 1;
end;

function Evens(Last: Integer): Small;
var
  k: Integer;
begin
  Evens := [];
  for k := 0 to Last do
    if not Odd(k) then Include(Result, k);
end;

function After(l: Light): Light;
begin
  if l = Green then After := Red else After := Succ(l);
end;

function Plus(const a, b: Point): Point;
begin
  Plus := MakePoint(a.x + b.x, a.y + b.y);
end;

begin
  p := Plus(MakePoint(1, 2), Plus(MakePoint(10, 20), MakePoint(100, 200)));
  WriteLn(p.x, ' ', p.y, ' ', Plus(p, p).y);
  r := Counted(7);
  WriteLn(r[1], ' ', r[4], ' ', Counted(30)[2]);
  WriteLn(6 in Evens(7), ' ', 8 in Evens(7), ' ', Ord(After(After(Green))), ' ', Evens(5) = [0, 2, 4]);
end.
