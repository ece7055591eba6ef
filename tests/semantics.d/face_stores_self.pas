{ A destructor that stores Self in a global again }
type TA = class(TInterfacedObject) destructor Destroy; override; end;
var g, x: IUnknown;
destructor TA.Destroy;
begin
  WriteLn('in');
  g := Self;
  inherited Destroy;
  WriteLn('out')
end;
begin
  x := TA.Create;
  x := nil;
  WriteLn('never')
end.
