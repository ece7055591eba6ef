{ An array and one of its elements, both as out: the array is held until the statement ends }
type T = array of String;
var a: T;
procedure P(out x: T; out y: String);
begin
  WriteLn(Length(x), Length(y));
  y := 'y';
  SetLength(x, 2);
  WriteLn(y, Length(x[0]))
end;
begin
  SetLength(a, 1);
  a[0] := 'zero';
  a[0] := a[0] + '!';
  P(a, a[0]);
  WriteLn(Length(a), '[', a[0], ']')
end.
