{ Functions that give texts: by Result, by their own name, and without storing anything }
function A: String;
begin
  Result := 'a';
  Result := Result + 'b'
end;
function B(n: Integer): String;
begin
  if n > 0 then B := A + 'c'
end;
var s: String;
begin
  s := B(1);
  WriteLn(s, A, '.')
end.
