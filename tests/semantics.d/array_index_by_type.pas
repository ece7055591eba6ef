{ Arrays indexed by Char, Boolean, an enumeration and a subrange }
type E = (red, green, blue); S = -1..1;
var a: array[Char] of Byte; b: array[Boolean] of Integer; c: array[E] of Char;
  d: array[S] of String;
begin
  a['x'] := 200;
  b[1 = 1] := 3;
  c[green] := 'g';
  d[-1] := 'minus';
  WriteLn(a['x'], b[True], c[green], d[-1], Ord(High(c)), Low(d));
  WriteLn(b[1 = 2], Length(d[1]))
end.
