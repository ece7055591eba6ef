{ Free of nil does nothing; FreeAndNil twice }
uses SysUtils;
type TA = class destructor Destroy; override; end;
destructor TA.Destroy; begin WriteLn('gone'); inherited Destroy end;
var a, b: TA;
begin
  a.Free;
  a := TA.Create;
  b := a;
  FreeAndNil(a);
  FreeAndNil(a);
  WriteLn(a = nil, b = nil, Assigned(b))
end.
