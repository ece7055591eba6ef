{ An array of records of arrays: one place deep inside is stored, the rest stays }
type
  R = record t: array[0..1] of String; n: Byte; end;
var a, b: array[1..2] of R;
begin
  a[1].t[0] := 'a';
  a[1].t[1] := a[1].t[0] + 'b';
  a[2] := a[1];
  a[2].t[1][2] := 'X';
  b := a;
  b[1].n := 9;
  a[1] := b[2];
  WriteLn(a[1].t[1], a[2].t[1], b[1].t[1], b[1].n, a[1].n)
end.
