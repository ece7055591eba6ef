{ FreeAndNil empties the variable before the destructor runs, Free leaves it }
uses SysUtils;
type TA = class destructor Destroy; override; end;
var g: TA;
destructor TA.Destroy;
begin
  WriteLn(g = nil);
  inherited Destroy
end;
begin
  g := TA.Create;
  FreeAndNil(g);
  g := TA.Create;
  g.Free;
  WriteLn(g <> nil)
end.
