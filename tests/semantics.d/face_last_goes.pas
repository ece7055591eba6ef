{ An instance goes when its last interface place lets go }
type TA = class(TInterfacedObject) destructor Destroy; override; end;
destructor TA.Destroy; begin WriteLn('gone'); inherited Destroy end;
var x, y: IUnknown;
begin
  x := TA.Create;
  y := x;
  x := nil;
  WriteLn('one left');
  y := nil;
  WriteLn('end')
end.
