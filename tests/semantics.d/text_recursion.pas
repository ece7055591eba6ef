{ Texts in a routine that calls itself }
function Rev(const s: String): String;
begin
  if Length(s) < 2 then Exit(s);
  Result := Rev(Copy(s, 2, Length(s))) + s[1]
end;
begin
  WriteLn(Rev('abcd'), Rev('x'), Rev(''))
end.
