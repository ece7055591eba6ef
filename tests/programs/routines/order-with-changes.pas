{ not as Free Pascal: it leaves the order open. What a call changes on the way is seen by what is evaluated behind it, and by nothing in front of it. }
program OrderWithChanges;
type
  Pair = record
    Parts: array [1..3] of Integer;
    Number: Integer;
  end;
var
  a: array [1..3] of Integer;
  i: Integer;
  p: Pair;

function Tell(n: Integer): Integer;
begin
  Write(n, ' ');
  Tell := n;
end;

function Bump: Integer;
begin
  i := i + 1;
  Bump := i;
end;

procedure Three(var x: Integer; y: Integer; var z: Integer);
begin
  x := x + y;
  z := z * 2;
  WriteLn(x, ' ', y, ' ', z);
end;

function Make(n: Integer): Pair;
begin
  Result.Number := n;
  Result.Parts[1] := n + 1;
  a[1] := 77;
end;

begin
  WriteLn(Tell(1):Tell(5), Tell(2));
  for i := Tell(2) downto Tell(1) do Write('x');
  WriteLn;
  i := 1; a[1] := 10; a[2] := 20; a[3] := 30;
  Three(a[i], Bump, a[Bump]);
  WriteLn(i, ' ', a[1], ' ', a[2], ' ', a[3]);
  i := 1;
  Inc(a[Bump], Bump);
  WriteLn(a[2], ' ', i);
  i := 1;
  a[i] := a[Bump] + a[i] * 100;
  WriteLn(a[1], ' ', a[2]);
  p := Make(a[1]);
  WriteLn(p.Number, ' ', p.Parts[1], ' ', a[1]);
  a[1] := 5;
  WriteLn(a[1] + Make(3).Number + a[1]);
  a[1] := 5;
  p.Parts[Make(2).Number] := a[1] + Make(1).Parts[1];
  WriteLn(p.Parts[2]);
  i := 0;
  WriteLn(Bump - Bump * Bump, ' ', (Bump = 4) and (Bump = 5), ' ', Bump shl Bump);
  i := 0;
  WriteLn(Bump:Bump, Bump:Bump);
end.
