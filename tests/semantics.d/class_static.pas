{ A static method is chosen by the declared type }
type
  TA = class procedure P; end;
  TB = class(TA) procedure P; end;
procedure TA.P; begin WriteLn('A') end;
procedure TB.P; begin WriteLn('B') end;
var a: TA; b: TB;
begin
  b := TB.Create;
  a := b;
  a.P;
  b.P;
  b.Free
end.
