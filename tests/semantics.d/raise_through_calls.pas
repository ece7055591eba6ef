{ An exception ends the locals of the calls that it leaves }
uses SysUtils;
type TA = class(TInterfacedObject) n: Integer; constructor Create(k: Integer); destructor Destroy; override; end;
constructor TA.Create(k: Integer); begin n := k end;
destructor TA.Destroy; begin WriteLn('gone ', n); inherited Destroy end;
procedure P(n: Integer);
var x: IUnknown;
begin
  x := TA.Create(n);
  if n = 3 then raise Exception.Create('deep');
  P(n + 1);
  WriteLn('never')
end;
begin
  try
    P(1)
  except
    on E: Exception do WriteLn(E.Message)
  end
end.
