{ An instance that no interface has held yet is freed like others }
type TA = class(TInterfacedObject) destructor Destroy; override; end;
destructor TA.Destroy; begin WriteLn('gone'); inherited Destroy end;
var o: TA;
begin
  o := TA.Create;
  WriteLn('made');
  o.Free;
  WriteLn('end')
end.
