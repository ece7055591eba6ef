{ Exit with a value stores the result and leaves }
function F(n: Integer): String;
var t: String;
begin
  t := 'loc';
  Result := 'first';
  if n = 1 then Exit(t + 'al');
  if n = 2 then Exit;
  Result := Result + '+'
end;
begin
  WriteLn(F(1), ' ', F(2), ' ', F(3))
end.
