{ A static array of texts is copied by assignment, passed by value, and given back }
type T = array[1..2] of String;
var a, b: T;
function F(x: T): T;
begin
  x[1] := x[1] + '+';
  Result := x;
  Result[2] := 'r'
end;
begin
  a[1] := 'p';
  a[2] := 'q';
  b := F(a);
  WriteLn(a[1], a[2], ' ', b[1], b[2]);
  a := b;
  b[1][1] := '*';
  WriteLn(a[1], b[1])
end.
