{ An abstract method that is called }
type
  TA = class procedure P; virtual; abstract; end;
  TB = class(TA) procedure P; override; end;
procedure TB.P; begin WriteLn('B') end;
var a: TA;
begin
  a := TB.Create;
  a.P;
  a.Free;
  a := TA.Create;
  WriteLn('made');
  a.P;
  WriteLn('never')
end.
