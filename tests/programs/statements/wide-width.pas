{ A width of thousands. }
program WideWidth;
var
  w, k: Integer;
begin
  w := 3000;
  WriteLn('x':w);
  w := 1;
  for k := 1 to 6 do
  begin
    w := w * 4;
    WriteLn(k:w, True:w, 'ab':w);
  end;
end.
