{ A var argument within an array that becomes nil: the array stays for the call }
var a: array of String;
procedure P(var s: String);
begin
  a := nil;
  s := s + '!';
  WriteLn(s, Length(a))
end;
begin
  SetLength(a, 2);
  a[1] := 'hi';
  a[1] := a[1] + 'o';
  P(a[1]);
  WriteLn(a = nil)
end.
