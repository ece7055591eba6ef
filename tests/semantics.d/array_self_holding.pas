{ A row outlives the array that held it }
type T = array of String;
  M = array of T;
var x: M; r: T;
begin
  SetLength(x, 1);
  SetLength(x[0], 1);
  x[0][0] := 'deep';
  r := x[0];
  x[0] := nil;
  WriteLn(r[0], Length(x[0]));
  r := Copy(r);
  r[0] := r[0] + 'er';
  WriteLn(r[0])
end.
