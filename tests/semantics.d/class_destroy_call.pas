{ Destroy may be called by its name; a second call finds a dead instance }
type TA = class destructor Destroy; override; end;
destructor TA.Destroy; begin WriteLn('gone'); inherited Destroy end;
var a: TA;
begin
  a := TA.Create;
  a.Destroy;
  WriteLn('once');
  a.Destroy
end.
