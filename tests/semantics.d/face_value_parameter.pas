{ A value parameter holds its instance while the global lets go }
type TA = class(TInterfacedObject) destructor Destroy; override; end;
destructor TA.Destroy; begin WriteLn('gone'); inherited Destroy end;
var g: IUnknown;
procedure P(x: IUnknown);
begin
  g := nil;
  WriteLn('in', x <> nil)
end;
begin
  g := TA.Create;
  P(g);
  WriteLn('end')
end.
