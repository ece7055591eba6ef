{ Records that share an array in a field, until one side's length is set }
type R = record d: array of Integer; s: String; end;
var a: array of R; x: R;
begin
  SetLength(a, 2);
  SetLength(a[0].d, 1);
  a[0].s := 'x';
  a[1] := a[0];
  a[1].d[0] := 5;
  x := a[1];
  SetLength(x.d, 2);
  x.d[0] := 6;
  x.s := x.s + 'y';
  WriteLn(a[0].d[0], x.d[0], Length(a[1].d), a[1].s, x.s)
end.
