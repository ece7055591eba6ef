{ The result is a variable like others: an element of it is stored without touching its other holder }
var g: String;
function F: String;
begin
  g := 'abc';
  g := g + 'd';
  Result := g;
  Result[1] := 'X'
end;
begin
  WriteLn(F, ' ', g)
end.
