{ An exception that leaves a constructor calls the destructor and makes nothing }
uses SysUtils;
type TA = class s: String; constructor Create(n: Integer); destructor Destroy; override; end;
constructor TA.Create(n: Integer);
begin
  s := 'f' + IntToStr(n);
  if n > 1 then raise Exception.Create('no ' + s)
end;
destructor TA.Destroy; begin WriteLn('destroy ', s); inherited Destroy end;
var a: TA;
begin
  try
    a := TA.Create(1);
    a.Free;
    a := nil;
    a := TA.Create(7)
  except
    on E: Exception do WriteLn(E.Message)
  end;
  WriteLn(a = nil)
end.
