{ A cast to a class is checked as well }
type
  TA = class end;
  TB = class(TA) n: Integer; end;
var a: TA; b: TB;
begin
  a := TA.Create;
  WriteLn('before');
  b := TB(a);
  WriteLn('never', b = nil)
end.
