{ A field of a dead instance }
type TA = class n: Integer; end;
var a, b: TA;
begin
  a := TA.Create;
  a.n := 3;
  b := a;
  WriteLn(b.n);
  a.Free;
  WriteLn('freed');
  WriteLn(b.n)
end.
