{ Free of an instance that an interface holds }
type TA = class(TInterfacedObject) destructor Destroy; override; end;
destructor TA.Destroy; begin WriteLn('never'); inherited Destroy end;
var o: TA; x: IUnknown;
begin
  o := TA.Create;
  x := o;
  WriteLn('held');
  o.Free
end.
