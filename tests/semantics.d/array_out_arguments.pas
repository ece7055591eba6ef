{ Out arguments are all empty before the routine begins }
type T = array of String;
var a: T; s: String;
procedure P(out x: String; out y: T);
begin
  WriteLn(Length(x), Length(y), Length(s), Length(a));
  x := 'new';
  SetLength(y, 1)
end;
begin
  s := 'old';
  SetLength(a, 2);
  a[0] := 'zero';
  P(s, a);
  WriteLn(s, Length(a), a[0], '.')
end.
