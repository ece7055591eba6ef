{ not as Free Pascal: it checks indices under R alone. An index below the bounds is error 201, also where it is read. }
program IndexBelow;
var
  a: array ['b'..'d'] of Integer;
  c: Char;
begin
  a['b'] := 7;
  for c := 'b' downto 'a' do
    WriteLn(c, ' ', a[c]);
end.
