{ The first clause that fits takes the exception }
uses SysUtils;
type EA = class(Exception) end; EB = class(EA) end;
procedure P(n: Integer);
begin
  try
    if n = 1 then raise EA.Create('one');
    if n = 2 then raise EB.Create('two');
    if n = 3 then raise Exception.Create('three');
    WriteLn('none')
  except
    on E: EB do WriteLn('B ', E.Message);
    on E: EA do WriteLn('A ', E.Message);
    on Exception do WriteLn('other')
  end
end;
begin
  P(0); P(1); P(2); P(3)
end.
