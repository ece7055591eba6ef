{ not as Free Pascal: it may hand on the variable itself. A const parameter is a copy that cannot be written. }
program ConstantParameters;
type
  Row = array [1..3] of Integer;
var
  n: Integer;
  r: Row;

procedure Show(const n: Integer; const a: Row; const c: Char);
begin
  WriteLn(n, ' ', a[1], ' ', a[2], ' ', a[3], ' ', c);
  r[2] := 99;
  WriteLn(n, ' ', a[1], ' ', a[2], ' ', a[3], ' ', c);
end;

procedure Both(const a: Row; var b: Row);
begin
  b[1] := a[1] + 1;
  b[1] := a[1] + 1;
  WriteLn(a[1], ' ', b[1]);
end;

begin
  n := 7;
  r[1] := 10; r[2] := 20; r[3] := 30;
  Show(n, r, 'x');
  WriteLn(r[2]);
  Both(r, r);
  WriteLn(r[1]);
end.
