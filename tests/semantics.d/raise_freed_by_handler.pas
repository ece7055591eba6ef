{ A handler that frees its instance: it is not freed again }
uses SysUtils;
type EA = class(Exception) destructor Destroy; override; end;
destructor EA.Destroy; begin WriteLn('freed'); inherited Destroy end;
begin
  try
    raise EA.Create('a')
  except
    on E: EA do begin
      E.Free;
      WriteLn('handled')
    end
  end;
  WriteLn('end')
end.
