{ The elements of a list are made from left to right, and stay until the call's end }
function F(n: Integer): String;
begin
  Write(n);
  Str(n, Result);
  Result := Result + ';'
end;
procedure P(const a: array of String);
var s: String;
begin
  for s in a do Write(' ', s);
  WriteLn
end;
begin
  P([F(1), F(2), 'lit', F(3)])
end.
