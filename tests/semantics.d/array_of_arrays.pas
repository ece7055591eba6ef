{ Arrays of arrays: rows are shared too, a row is made longer alone }
type T = array of Integer;
var m: array of T; r: T; i: Integer;
begin
  SetLength(m, 2);
  for i := 0 to 1 do SetLength(m[i], 2);
  m[1][0] := 5;
  r := m[1];
  r[1] := 6;
  WriteLn(m[1, 0], m[1, 1], m[0][1]);
  SetLength(m[1], 3);
  m[1][0] := 8;
  WriteLn(r[0], Length(m[1]), Length(r));
  m[0] := r;
  m := nil;
  WriteLn(r[1])
end.
