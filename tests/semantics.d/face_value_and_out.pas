{ One variable as a value and as out: the value holds the instance }
type TA = class(TInterfacedObject) destructor Destroy; override; end;
destructor TA.Destroy; begin WriteLn('gone'); inherited Destroy end;
procedure P(x: IUnknown; out y: IUnknown);
begin
  WriteLn(x = nil, y = nil);
  y := x
end;
var g: IUnknown;
begin
  g := TA.Create;
  P(g, g);
  WriteLn(g = nil);
  g := nil;
  WriteLn('end')
end.
