{ A negative length is an error }
var a: array of Integer; n: Integer;
begin
  SetLength(a, 1);
  n := -2;
  WriteLn(Length(a));
  SetLength(a, n);
  WriteLn('never')
end.
