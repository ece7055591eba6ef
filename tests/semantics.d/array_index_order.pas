{ All indices and the right side run before any of them is checked }
var m: array[0..1] of array[0..1] of Integer;
function F(n: Integer): Integer;
begin
  Write(n, ' ');
  F := n
end;
begin
  m[F(0), F(1)] := F(9);
  WriteLn(m[0][1]);
  m[F(7), F(8)] := F(5);
  WriteLn('never')
end.
