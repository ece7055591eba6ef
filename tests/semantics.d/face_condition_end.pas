{ An instance made for a condition goes before the choice }
type
  IA = interface function Ok: Boolean; end;
  TA = class(TInterfacedObject, IA) function Ok: Boolean; destructor Destroy; override; end;
function TA.Ok: Boolean; begin Result := True end;
destructor TA.Destroy; begin WriteLn('gone'); inherited Destroy end;
function Make: IA; begin Result := TA.Create end;
begin
  if Make.Ok then WriteLn('then');
  repeat WriteLn('turn') until Make.Ok;
  while not Make.Ok do WriteLn('never');
  WriteLn('end')
end.
