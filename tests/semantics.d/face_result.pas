{ A function gives an interface that is stored }
type TA = class(TInterfacedObject) destructor Destroy; override; end;
destructor TA.Destroy; begin WriteLn('gone'); inherited Destroy end;
function Make: IUnknown;
begin
  Result := TA.Create;
  WriteLn('made')
end;
var x: IUnknown;
begin
  x := Make;
  WriteLn('stored');
  x := nil;
  WriteLn('end')
end.
