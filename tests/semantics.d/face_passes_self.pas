{ A destructor may hand Self to an interface that lets go again }
type TA = class(TInterfacedObject) destructor Destroy; override; end;
procedure P(x: IUnknown); begin WriteLn('P', x <> nil); x := nil end;
destructor TA.Destroy;
begin
  P(Self);
  WriteLn('after');
  inherited Destroy
end;
var x: IUnknown;
begin
  x := TA.Create;
  x := nil;
  WriteLn('end')
end.
