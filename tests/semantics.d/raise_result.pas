{ A function that an exception leaves gives nothing: the result that it had goes }
uses SysUtils;
type TA = class(TInterfacedObject) destructor Destroy; override; end;
destructor TA.Destroy; begin WriteLn('gone') end;
function F: IUnknown;
begin
  Result := TA.Create;
  raise EConvertError.Create('bad')
end;
var x: IUnknown;
begin
  try x := F except on E: EConvertError do WriteLn(E.Message) end;
  WriteLn(x <> nil)
end.
