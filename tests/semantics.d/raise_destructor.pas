{ An exception that leaves a destructor which Free called: the instance is dead, the exception goes on }
uses SysUtils;
type TA = class x: IUnknown; destructor Destroy; override; end;
  TB = class(TInterfacedObject) destructor Destroy; override; end;
destructor TB.Destroy; begin WriteLn('field gone'); inherited Destroy end;
destructor TA.Destroy; begin WriteLn('in'); raise Exception.Create('bad') end;
var a: TA;
begin
  a := TA.Create;
  a.x := TB.Create;
  try
    a.Free
  except
    on E: Exception do WriteLn(E.Message)
  end;
  WriteLn(a <> nil)
end.
