{ A method called through an interface may clear the only variable: its instance goes afterwards }
type
  IA = interface procedure Clear; end;
  TA = class(TInterfacedObject, IA) n: Integer; procedure Clear; destructor Destroy; override; end;
var g: IA;
procedure TA.Clear;
begin
  n := 5;
  g := nil;
  WriteLn('still ', n)
end;
destructor TA.Destroy; begin WriteLn('gone ', n); inherited Destroy end;
begin
  g := TA.Create;
  g.Clear;
  WriteLn('end')
end.
