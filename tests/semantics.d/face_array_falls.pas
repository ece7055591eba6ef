{ While an array's elements go, the variable is empty already }
type TA = class(TInterfacedObject) destructor Destroy; override; end;
var a: array of IUnknown;
destructor TA.Destroy; begin WriteLn(Length(a)); inherited Destroy end;
begin
  SetLength(a, 2);
  a[0] := TA.Create;
  a[1] := TA.Create;
  a := nil;
  WriteLn('end')
end.
