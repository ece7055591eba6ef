{ Texts as elements: copied with the array, kept by SetLength, ended one by one }
type T = array of String;
var a, b: T;
begin
  SetLength(a, 3);
  a[0] := 'x';
  a[1] := a[0] + 'y';
  a[2] := a[1] + 'z';
  b := Copy(a, 1, 2);
  b[0][1] := '-';
  SetLength(a, 2);
  WriteLn(a[0], a[1], ' ', b[0], b[1]);
  a := nil;
  WriteLn(b[1])
end.
