{ A handler's end frees the instance, also when it is left by Exit }
uses SysUtils;
type EA = class(Exception) destructor Destroy; override; end;
destructor EA.Destroy; begin WriteLn('freed ', Message); inherited Destroy end;
procedure P(n: Integer);
begin
  try
    raise EA.Create('a')
  except
    on E: EA do begin
      if n = 1 then Exit;
      WriteLn('handled')
    end
  end;
  WriteLn('after')
end;
begin
  P(0);
  P(1);
  WriteLn('end')
end.
