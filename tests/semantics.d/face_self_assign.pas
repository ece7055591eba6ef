{ The only holder assigned to itself destroys nothing }
type TA = class(TInterfacedObject) destructor Destroy; override; end;
destructor TA.Destroy; begin WriteLn('gone'); inherited Destroy end;
var x: IUnknown;
begin
  x := TA.Create;
  x := x;
  WriteLn('still there');
  x := nil
end.
