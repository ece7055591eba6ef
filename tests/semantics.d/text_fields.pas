{ Texts in the fields of a record: the record is copied, then one side changes }
type R = record a: String; n: Integer; b: String; end;
var x, y: R;
begin
  x.a := 'one';
  x.b := x.a + '!';
  x.n := 3;
  y := x;
  y.a[1] := 'O';
  x.b := '';
  WriteLn(x.a, x.n, x.b, ' ', y.a, y.n, y.b)
end.
