{ A record with an interface is copied: two holders }
type
  R = record s: String; x: IUnknown; end;
  TA = class(TInterfacedObject) destructor Destroy; override; end;
destructor TA.Destroy; begin WriteLn('gone'); inherited Destroy end;
var a, b, e: R;
begin
  a.x := TA.Create;
  b := a;
  a := e;
  WriteLn('one left', a.x = nil);
  b.x := nil;
  WriteLn('end')
end.
