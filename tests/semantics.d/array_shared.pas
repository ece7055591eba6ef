{ Assignment shares the array, SetLength parts the two }
type T = array of Integer;
var a, b: T;
begin
  SetLength(a, 2);
  b := a;
  b[0] := 7;
  WriteLn(a[0], a = b);
  SetLength(b, 2);
  b[0] := 9;
  WriteLn(a[0], b[0], a = b);
  a := nil;
  WriteLn(Length(a), Length(b), Assigned(a), Assigned(b))
end.
