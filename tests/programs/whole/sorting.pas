{ Five ways to sort the same numbers, each counted. }
program Sorting;
const
  Last = 40;
type
  Numbers = array [1..Last] of Integer;
var
  Given, a: Numbers;
  Steps: Integer;

procedure Swap(var a, b: Integer);
var
  c: Integer;
begin
  c := a; a := b; b := c;
  Inc(Steps);
end;

procedure Bubble(var a: Numbers);
var
  k, n: Integer;
begin
  for n := Last downto 2 do
    for k := 1 to n - 1 do
      if a[k] > a[k + 1] then Swap(a[k], a[k + 1]);
end;

procedure Insertion(var a: Numbers);
var
  k, n, x: Integer;
begin
  for n := 2 to Last do
  begin
    x := a[n];
    k := n - 1;
    while (k >= 1) and (a[k] > x) do
    begin
      a[k + 1] := a[k];
      Dec(k);
      Inc(Steps);
    end;
    a[k + 1] := x;
  end;
end;

procedure Quick(var a: Numbers; From, Upto: Integer);
var
  i, j, Middle: Integer;
begin
  i := From; j := Upto;
  Middle := a[(i + j) div 2];
  repeat
    while a[i] < Middle do Inc(i);
    while Middle < a[j] do Dec(j);
    if i <= j then
    begin
      Swap(a[i], a[j]);
      Inc(i); Dec(j);
    end;
  until i > j;
  if From < j then Quick(a, From, j);
  if i < Upto then Quick(a, i, Upto);
end;

procedure Sink(var a: Numbers; Root, Count: Integer);
var
  Child: Integer;
begin
  while 2 * Root <= Count do
  begin
    Child := 2 * Root;
    if (Child < Count) and (a[Child] < a[Child + 1]) then Inc(Child);
    if a[Root] >= a[Child] then Break;
    Swap(a[Root], a[Child]);
    Root := Child;
  end;
end;

procedure Heap(var a: Numbers);
var
  k: Integer;
begin
  for k := Last div 2 downto 1 do Sink(a, k, Last);
  for k := Last downto 2 do
  begin
    Swap(a[1], a[k]);
    Sink(a, 1, k - 1);
  end;
end;

procedure Merge(var a: Numbers; First, Behind: Integer);
var
  b: Numbers;
  i, j, k, Middle: Integer;
begin
  if Behind - First < 2 then Exit;
  Middle := (First + Behind) div 2;
  Merge(a, First, Middle);
  Merge(a, Middle, Behind);
  b := a;
  i := First; j := Middle;
  for k := First to Behind - 1 do
  begin
    Inc(Steps);
    if (j >= Behind) or (i < Middle) and (b[i] <= b[j]) then
    begin
      a[k] := b[i]; Inc(i);
    end
    else
    begin
      a[k] := b[j]; Inc(j);
    end;
  end;
end;

procedure Show(const a: Numbers);
var
  k, Sum: Integer;
begin
  Sum := 0;
  for k := 1 to Last do Sum := Sum * 31 + a[k];
  for k := 2 to Last do
    if a[k - 1] > a[k] then WriteLn('not sorted at ', k);
  WriteLn(Steps:5, a[1]:8, a[Last]:8, Sum:12);
  Steps := 0;
end;

var
  k, Seed: Integer;
begin
  Seed := 7;
  for k := 1 to Last do
  begin
    Seed := (Seed * 1103 + 12345) mod 65536;
    Given[k] := Seed - 30000;
  end;
  a := Given; Bubble(a); Show(a);
  a := Given; Insertion(a); Show(a);
  a := Given; Quick(a, 1, Last); Show(a);
  a := Given; Heap(a); Show(a);
  a := Given; Merge(a, 1, Last + 1); Show(a);
end.
