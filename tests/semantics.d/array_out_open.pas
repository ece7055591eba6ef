{ An out open array: its texts are empty, its numbers stay }
var d: array of String; n: array[0..1] of Integer;
procedure P(out a: array of String; out b: array of Integer);
begin
  WriteLn(Length(a), Length(a[0]), High(b));
  a[1] := 'q'
end;
begin
  SetLength(d, 2);
  d[0] := 'p';
  P(d, n);
  WriteLn('[', d[0], d[1], ']')
end.
