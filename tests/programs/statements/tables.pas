{ A table of products, with widths. }
program Tables;
var
  x, y: Integer;
begin
  Write('  |');
  for x := 1 to 9 do Write(x:3);
  WriteLn;
  Write('--+');
  for x := 1 to 27 do Write('-');
  WriteLn;
  for y := 1 to 9 do
  begin
    Write(y:2, '|');
    for x := 1 to 9 do Write(x * y:3);
    WriteLn;
  end;
end.
