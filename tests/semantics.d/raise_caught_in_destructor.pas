{ A destructor that catches its own exception ends as others do }
uses SysUtils;
type TA = class(TInterfacedObject) destructor Destroy; override; end;
destructor TA.Destroy;
begin
  try
    raise Exception.Create('inside')
  except
    on E: Exception do WriteLn(E.Message)
  end;
  inherited Destroy
end;
var x: IUnknown;
begin
  x := TA.Create;
  x := nil;
  WriteLn('end')
end.
