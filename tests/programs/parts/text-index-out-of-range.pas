{ not as Free Pascal: it checks under R alone. An index past the end of a text is error 201. }
program TextIndexOutOfRange;
var
  k: Integer;
begin
  for k := 3 downto 0 do
    WriteLn('abc'[k]);
end.
