{ Texts of two elements change places }
var a: array of String; t: String;
procedure Swap(var x, y: String);
var z: String;
begin
  z := x;
  x := y;
  y := z
end;
begin
  SetLength(a, 2);
  a[0] := 'p';
  a[1] := a[0] + 'q';
  Swap(a[0], a[1]);
  WriteLn(a[0], ' ', a[1]);
  Swap(a[0], a[0]);
  WriteLn(a[0], Length(t))
end.
