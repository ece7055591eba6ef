{ A local's destructor prints between the raise and the handler, with its own exception inside }
uses SysUtils;
type TA = class(TInterfacedObject) destructor Destroy; override; end;
destructor TA.Destroy;
begin
  try
    raise Exception.Create('inner')
  except
    on E: Exception do WriteLn(E.Message)
  end;
  inherited Destroy
end;
procedure P;
var x: IUnknown;
begin
  x := TA.Create;
  raise Exception.Create('outer')
end;
begin
  try P except on E: Exception do WriteLn(E.Message) end
end.
