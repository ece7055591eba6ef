{ The right side has its effect though the index is found bad afterwards }
var a: array of Integer; n: Integer;
function F: Integer;
begin
  WriteLn('right side');
  F := 3
end;
begin
  SetLength(a, 2);
  n := 2;
  a[n] := F;
  WriteLn('never')
end.
