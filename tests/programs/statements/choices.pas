{ if with and without else: an else belongs to the nearest if. }
program Choices;
var
  a, b: Integer;

procedure Tell(n: Integer);
begin
  if n > 0 then
    if n > 10 then Write('large')
    else Write('small');
  if n < 0 then
  begin
    if n < -10 then Write('very ')
  end
  else Write('/');
  if n = 0 then else Write('.');
  if n = 0 then Write('nothing') else if n = 1 then Write(' one') else if Odd(n) then Write(' odd') else Write(' even');
  WriteLn;
end;

begin
  for a := -1 to 1 do Tell(a);
  Tell(11);
  Tell(-12);
  for a := 0 to 1 do
    for b := 0 to 1 do
      if a = b then WriteLn('same ', a)
      else
        if a > b then WriteLn('greater')
        else WriteLn('less');
end.
