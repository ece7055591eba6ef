{ Ord, Chr and UpCase of Chars, loops over letters, and characters by number. }
program Letters;
var
  Letter: Char;
  Sum: Integer;
begin
  for Letter := 'a' to 'z' do Write(UpCase(Letter));
  WriteLn;
  for Letter := 'Z' downto 'A' do Write(Chr(Ord(Letter) + 32));
  WriteLn;
  Sum := 0;
  for Letter := #0 to #255 do
    if UpCase(Letter) <> Letter then Inc(Sum, Ord(Letter));
  WriteLn(Sum);
  for Letter := ' ' to '~' do
    if UpCase(Letter) = Letter then Write(Letter);
  WriteLn;
  WriteLn(Ord('A'), ' ', Ord(#0), ' ', Ord(#255), ' ', Ord(''''), ' ', #72#105'!'#$21);
  WriteLn('a' < 'b', ' ', 'B' < 'a', ' ', #255 > #127);
end.
