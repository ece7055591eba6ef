{ An exception that leaves a destructor which a lost interface started is unhandled at once }
uses SysUtils;
type TA = class(TInterfacedObject) destructor Destroy; override; end;
destructor TA.Destroy; begin WriteLn('in'); raise Exception.Create('lost') end;
var x: IUnknown;
begin
  x := TA.Create;
  try
    x := nil
  except
    WriteLn('never')
  end
end.
