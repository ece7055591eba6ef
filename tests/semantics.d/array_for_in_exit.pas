{ A routine is left out of a for in }
type T = array of String;
var g: T;
function F(const t: String): Integer;
var x: String;
begin
  Result := 0;
  for x in g do begin
    if x = t then Exit(Length(x + t));
    Result := Result - 1
  end
end;
begin
  SetLength(g, 3);
  g[1] := 'ab';
  WriteLn(F('ab'), ' ', F(''), ' ', F('no'))
end.
