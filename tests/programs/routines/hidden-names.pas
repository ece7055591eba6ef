{ A name stands for what was declared last round its use; built-in names can be hidden, and named by System. }
program HiddenNames;
const
  Ord = 5;
type
  Char = 0..9;
var
  n, Max: Integer;
  c: Char;

procedure Outer(n: Integer);
const
  Max = 100;
begin
  n := n + Max;
  WriteLn(n, ' ', Ord);
end;

function Inner: Integer;
var
  Inner2, n: Integer;
begin
  n := 3;
  Inner2 := n * 2;
  Inner := Inner2;
end;

function Abs(n: Integer): Integer;
begin
  Abs := System.Abs(n) + 1000;
end;

begin
  n := 1; Max := 2; c := 9;
  Outer(n);
  WriteLn(n, ' ', Max, ' ', Inner, ' ', c + Ord, ' ', System.Ord('A'), ' ', Abs(-7));
end.
