{ A class variable holds nothing: its instance goes with the interface, and is dead then }
type TA = class(TInterfacedObject) n: Integer; destructor Destroy; override; end;
destructor TA.Destroy; begin WriteLn('gone'); inherited Destroy end;
var o: TA; x: IUnknown;
begin
  o := TA.Create;
  o.n := 3;
  x := o;
  WriteLn(o.n);
  x := nil;
  WriteLn(Assigned(o));
  WriteLn(o.n)
end.
