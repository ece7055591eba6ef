{ An unhandled exception runs the finally parts, then the globals go }
uses SysUtils;
type eown = class(Exception) end;
  TA = class(TInterfacedObject) destructor Destroy; override; end;
destructor TA.Destroy; begin WriteLn('global gone'); inherited Destroy end;
var g: IUnknown;
begin
  g := TA.Create;
  try
    raise eown.Create('why')
  finally
    WriteLn('finally')
  end;
  WriteLn('never')
end.
