{ Fields start as zero, a constructor fills some of them }
type TA = class
    n: Integer; s: String; b: Boolean; o: TObject;
    constructor Create(x: Integer);
  end;
constructor TA.Create(x: Integer);
begin
  WriteLn(n, s, b, o = nil);
  n := x
end;
var a: TA;
begin
  a := TA.Create(7);
  WriteLn(a.n, a.s, a.b);
  a.Free
end.
