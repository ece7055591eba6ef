{ A var parameter that is handed on, also through recursion, stands for the same place. }
program HandedOn;
type
  Row = array [1..5] of Integer;
var
  Total: Integer;
  r: Row;
  k: Integer;

procedure Add(var Sum: Integer; n: Integer);
begin
  if n = 0 then Exit;
  Sum := Sum + n;
  Add(Sum, n - 1);
end;

procedure Fill(var r: Row; At: Integer);
begin
  if At > High(r) then Exit;
  Add(r[At], At);
  Fill(r, At + 1);
end;

procedure Down(var a, b: Integer; Depth: Integer);
begin
  if Depth = 0 then a := a + 1000 * b
  else Down(b, a, Depth - 1);
end;

var
  a, b: Integer;
begin
  Add(Total, 100);
  WriteLn(Total);
  Fill(r, 1);
  for k := 1 to 5 do Write(r[k], ' ');
  WriteLn;
  a := 1; b := 2;
  Down(a, b, 4);
  WriteLn(a, ' ', b);
  Down(a, b, 3);
  WriteLn(a, ' ', b);
end.
