{ Exit out of a routine with locals that hold instances }
type TA = class(TInterfacedObject) destructor Destroy; override; end;
destructor TA.Destroy; begin WriteLn('gone'); inherited Destroy end;
function F(n: Integer): Integer;
var x: IUnknown;
begin
  x := TA.Create;
  Result := 1;
  if n = 1 then Exit(2);
  while n > 0 do begin
    if n = 2 then Exit;
    n := n - 1
  end
end;
begin
  WriteLn(F(1));
  WriteLn(F(2));
  WriteLn(F(0))
end.
