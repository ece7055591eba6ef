{ A field given as var is checked at each use, also after its instance has gone }
type TA = class n: Integer; end;
var a: TA;
procedure P(var k: Integer);
begin
  k := k + 1;
  WriteLn(k);
  a.Free;
  WriteLn('freed');
  k := 7;
  WriteLn('never')
end;
begin
  a := TA.Create;
  P(a.n)
end.
