{ A const parameter holds its instance while the global lets go }
type
  IA = interface procedure Say; end;
  TA = class(TInterfacedObject, IA) procedure Say; destructor Destroy; override; end;
procedure TA.Say; begin WriteLn('say') end;
destructor TA.Destroy; begin WriteLn('gone'); inherited Destroy end;
var g: IA;
procedure P(const x: IA);
begin
  g := nil;
  x.Say;
  WriteLn('leave')
end;
begin
  g := TA.Create;
  P(g);
  WriteLn('end')
end.
