{ for in over an open array, of which an element changes while the loop runs }
var d: array of Integer;
procedure P(var a: array of Integer);
var x: Integer;
begin
  for x in a do begin
    Write(x, ' ');
    a[2] := a[2] + 10
  end;
  WriteLn
end;
begin
  SetLength(d, 3);
  d[0] := 1;
  P(d);
  WriteLn(d[2])
end.
