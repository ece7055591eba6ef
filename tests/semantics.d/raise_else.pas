{ else takes what no clause takes; statements without on take all }
uses SysUtils;
type EA = class(Exception) end;
procedure P(n: Integer);
begin
  try
    if n = 1 then raise EA.Create('a') else raise Exception.Create('b')
  except
    on EA do WriteLn('EA')
    else WriteLn('else')
  end
end;
begin
  P(1);
  P(2);
  try raise EA.Create('c') except WriteLn('all') end
end.
