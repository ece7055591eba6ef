{ The temporaries of a statement that an exception leaves go before the handler begins }
uses SysUtils;
type TA = class(TInterfacedObject) n: Integer; constructor Create(k: Integer); destructor Destroy; override; end;
constructor TA.Create(k: Integer); begin n := k end;
destructor TA.Destroy; begin WriteLn('gone ', n); inherited Destroy end;
function Make(k: Integer): IUnknown;
begin
  Result := TA.Create(k);
  if k = 3 then raise Exception.Create('three')
end;
procedure P(a, b, c: IUnknown); begin WriteLn('never') end;
begin
  try
    P(Make(1), Make(2), Make(3))
  except
    on E: Exception do WriteLn(E.Message)
  end
end.
