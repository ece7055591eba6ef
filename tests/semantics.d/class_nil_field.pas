{ A field of nil }
type TA = class n: Integer; end;
var a: TA;
begin
  WriteLn(a = nil);
  WriteLn(a.n)
end.
