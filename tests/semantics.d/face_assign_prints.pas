{ A destructor prints the variable that is being assigned: it has the new value }
type
  IA = interface function N: Integer; end;
  TA = class(TInterfacedObject, IA) k: Integer; constructor Create(x: Integer); function N: Integer; destructor Destroy; override; end;
var g: IA;
constructor TA.Create(x: Integer); begin k := x end;
function TA.N: Integer; begin Result := k end;
destructor TA.Destroy;
begin
  Write('gone ', k);
  if g = nil then WriteLn(' nil') else WriteLn(' now ', g.N);
  inherited Destroy
end;
begin
  g := TA.Create(1);
  g := TA.Create(2);
  g := nil;
  WriteLn('end')
end.
