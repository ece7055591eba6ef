{ Arrays with equal elements are not the same array; two empty ones are }
type T = array of Integer;
var a, b: T;
begin
  SetLength(a, 1);
  SetLength(b, 1);
  WriteLn(a = b, a <> b, a = nil, b <> nil);
  b := a;
  WriteLn(a = b);
  a := nil;
  SetLength(b, 0);
  WriteLn(a = b)
end.
