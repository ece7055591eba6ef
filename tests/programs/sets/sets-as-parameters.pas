{ Sets as parameters of each mode, as results, and as elements of arrays. }
program SetsAsParameters;
type
  Small = set of 0..31;
  Rows = array [1..3] of Small;
var
  r: Rows;
  s: Small;
  k: Integer;

function Count(s: Small): Integer;
var
  k: Integer;
begin
  Result := 0;
  for k := 0 to 31 do
    if k in s then
    begin
      Inc(Result);
      Exclude(s, k);
    end;
  if s <> [] then Result := -1;
end;

procedure Move(var From, Into: Small; k: Integer);
begin
  if not (k in From) then Exit;
  Exclude(From, k);
  Include(Into, k);
end;

procedure Fill(out s: Small; const t: Small);
begin
  s := [0..31] - t;
end;

function Shifted(const s: Small): Small;
var
  k: Integer;
begin
  Shifted := [];
  for k := 0 to 30 do
    if k in s then Include(Result, k + 1);
end;

begin
  r[1] := [1..10];
  Move(r[1], r[2], 5);
  Move(r[1], r[2], 11);
  Fill(r[3], r[1] + r[2]);
  s := Shifted(Shifted(r[2]));
  WriteLn(Count(r[1]), ' ', Count(r[2]), ' ', Count(r[3]), ' ', Count(s), ' ', 7 in s, ' ', Count([]), ' ', Count(r[1] + r[2] + r[3]));
  for k := 1 to 3 do Write(5 in r[k], ' ');
  WriteLn;
end.
