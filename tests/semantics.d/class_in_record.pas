{ An instance in a record: the copy refers to the same one }
type
  TA = class n: Integer; end;
  R = record o: TA; s: String; end;
var x, y: R;
begin
  x.o := TA.Create;
  x.s := 'x';
  y := x;
  y.o.n := 8;
  y.s := 'y';
  WriteLn(x.o.n, x.s, y.s, x.o = y.o);
  x.o.Free
end.
