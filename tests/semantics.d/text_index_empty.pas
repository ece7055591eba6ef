{ The empty text has no character }
var s: String; i: Integer;
begin
  i := 1;
  if Length(s) = 0 then WriteLn('empty');
  if s[i] = 'x' then WriteLn('never')
end.
