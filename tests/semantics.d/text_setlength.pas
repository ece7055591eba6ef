{ SetLength: shorter, longer with zero bytes, same, none }
var s: String;
begin
  s := 'hello';
  SetLength(s, 2);
  WriteLn(s);
  SetLength(s, 4);
  WriteLn(Length(s), Ord(s[3]), Ord(s[4]), s[2]);
  SetLength(s, 4);
  SetLength(s, 0);
  WriteLn(Length(s), s = '')
end.
