{ Records as elements: an element is copied out, and copied in }
type R = record s: String; n: Integer; end;
var a: array of R; x: R;
begin
  SetLength(a, 2);
  a[0].s := 'one';
  a[0].s := a[0].s + '!';
  x := a[0];
  x.n := 4;
  x.s[1] := 'O';
  a[1] := x;
  a[0] := a[1];
  x.s := '';
  WriteLn(a[0].s, a[0].n, a[1].s, Length(x.s))
end.
