{ not as Free Pascal: there locals begin as anything. They begin as zero, or with their first value, at each call. }
program LocalsBeginAnew;
type
  Row = array [1..3] of Integer;

procedure Count(n: Integer);
var
  k: Integer;
  r: Row;
  f: Boolean;
  s: set of 0..31;
  First: Integer = 40;
  Given: Row = (1, 2, 3);
begin
  Write(k, ' ', r[2], ' ', f, ' ', 7 in s, ' ', First, ' ', Given[2], ' | ');
  k := n; r[2] := n; f := True; s := [7]; First := n; Given[2] := n;
  if n > 0 then Count(n - 1);
  WriteLn(k, ' ', r[2], ' ', f, ' ', 7 in s, ' ', First, ' ', Given[2]);
end;

begin
  Count(2);
  Count(0);
end.
