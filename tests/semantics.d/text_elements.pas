{ Texts as elements of a static and of a dynamic array }
var a: array[1..3] of String; b: array of String; i: Integer;
begin
  a[1] := 'p';
  a[2] := a[1] + 'q';
  SetLength(b, 2);
  b[0] := a[2];
  b[1] := b[0] + a[3];
  b[0][1] := 'Z';
  for i := 1 to 3 do Write(a[i], ',');
  WriteLn(b[0], ',', b[1])
end.
