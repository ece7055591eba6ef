{ A negative length is an error }
var s: String; n: Integer;
begin
  s := 'ab';
  n := -1;
  WriteLn(s);
  SetLength(s, n);
  WriteLn('never')
end.
