{ A function that stores nothing gives the empty text, whatever its result is stored in }
function F(n: Integer): String;
begin
  if n > 0 then F := 'set'
end;
var s: String;
begin
  s := F(1);
  WriteLn(s);
  s := F(0);
  WriteLn(Length(s))
end.
