{ not as Free Pascal: there the counter has no value behind its loop. It has what was stored in it last, and keeps what it had without a turn. }
program CounterBehindLoop;
var
  k: Integer;
begin
  for k := 1 to 5 do;
  WriteLn(k);
  for k := 5 downto 2 do;
  WriteLn(k);
  for k := 9 to 8 do;
  WriteLn(k);
  for k := 1 to 10 do
    if k = 7 then Break;
  WriteLn(k);
  for k := MaxInt - 1 to MaxInt do;
  WriteLn(k);
end.
