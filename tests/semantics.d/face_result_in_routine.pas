{ A routine that makes, uses and leaves an interface }
type
  IA = interface procedure Show; end;
  TA = class(TInterfacedObject, IA) procedure Show; destructor Destroy; override; end;
procedure TA.Show; begin WriteLn('show') end;
destructor TA.Destroy; begin WriteLn('gone'); inherited Destroy end;
procedure P;
var x: IA;
begin
  x := TA.Create;
  x.Show
end;
begin
  P;
  WriteLn('between');
  P
end.
