{ A new instance is never the dead one, also where it takes its room }
type TA = class n: Integer; end;
var a, b: TA;
begin
  a := TA.Create;
  a.Free;
  b := TA.Create;
  b.n := 4;
  WriteLn(a = b);
  WriteLn(b.n);
  WriteLn(a.n)
end.
