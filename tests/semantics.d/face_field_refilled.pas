{ A field that is ended is filled again by the destructor of what it held }
type TA = class(TInterfacedObject) x: IUnknown; destructor Destroy; override; end;
  TB = class(TInterfacedObject) o: TA; destructor Destroy; override; end;
destructor TA.Destroy; begin WriteLn('A'); inherited Destroy end;
destructor TB.Destroy; begin WriteLn('B'); o.x := TInterfacedObject.Create; inherited Destroy end;
var a: TA; b: TB;
begin
  a := TA.Create;
  b := TB.Create;
  b.o := a;
  a.x := b;
  a.Free;
  WriteLn('never')
end.
