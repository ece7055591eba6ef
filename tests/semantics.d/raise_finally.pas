{ Finally parts run from the inside out, also without an exception and by Exit }
uses SysUtils;
procedure P(n: Integer);
begin
  try
    try
      Write('body ');
      if n = 1 then Exit;
      if n = 2 then raise Exception.Create('x');
      Write('done ')
    finally
      Write('inner ')
    end;
    Write('between ')
  finally
    WriteLn('outer')
  end
end;
begin
  P(0);
  P(1);
  try P(2) except on E: Exception do WriteLn('caught ', E.Message) end
end.
