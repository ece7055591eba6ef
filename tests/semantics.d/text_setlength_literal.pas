{ SetLength of a literal's text makes an own one }
var s, t: String;
begin
  s := 'abc';
  SetLength(s, 3);
  s[1] := 'X';
  t := 'abc';
  SetLength(t, 2);
  WriteLn(s, t, 'abc');
  t := '';
  SetLength(t, 1);
  WriteLn(Ord(t[1]))
end.
