{ Two instances that hold each other stay }
type TA = class(TInterfacedObject) other: IUnknown; destructor Destroy; override; end;
destructor TA.Destroy; begin WriteLn('never'); inherited Destroy end;
var a, b: TA; x: IUnknown;
begin
  a := TA.Create;
  b := TA.Create;
  x := a;
  a.other := b;
  b.other := a;
  x := nil;
  WriteLn('end')
end.
