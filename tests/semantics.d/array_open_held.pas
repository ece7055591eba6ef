{ A dynamic array given as a var open array stays while its variable is emptied }
var d: array of String;
procedure P(var a: array of String);
begin
  d := nil;
  a[0] := a[0] + '!';
  WriteLn(a[0], Length(a), Length(d))
end;
begin
  SetLength(d, 2);
  d[0] := 'kept';
  P(d);
  WriteLn(d = nil)
end.
