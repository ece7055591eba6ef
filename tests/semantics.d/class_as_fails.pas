{ as to a class that is not the instance's }
type
  TA = class end;
  TB = class(TA) n: Integer; end;
var a: TA;
begin
  a := TA.Create;
  WriteLn(a is TB);
  WriteLn((a as TB).n)
end.
