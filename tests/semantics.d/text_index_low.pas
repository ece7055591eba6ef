{ Index 0 is outside of every text }
var s: String; i: Integer;
begin
  s := 'abc';
  i := 0;
  WriteLn('before');
  WriteLn(s[i])
end.
