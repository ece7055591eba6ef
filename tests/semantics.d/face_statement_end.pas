{ An instance that only a temporary holds goes when its statement ends }
type
  IA = interface procedure Show; end;
  TA = class(TInterfacedObject, IA) procedure Show; destructor Destroy; override; end;
procedure TA.Show; begin WriteLn('show') end;
destructor TA.Destroy; begin WriteLn('gone'); inherited Destroy end;
function Make: IA; begin Result := TA.Create end;
begin
  Make.Show;
  WriteLn('next');
  Make;
  WriteLn('end')
end.
