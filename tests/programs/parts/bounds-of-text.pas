{ not as Free Pascal: there they are 0 and one less than the length. Low and High of a text are its first and last index. }
program BoundsOfText;
const
  Name = 'opc';
var
  I: Integer;
begin
  WriteLn(Low(Name), ' ', High(Name), ' ', Length(Name));
  for I := Low(Name) to High(Name) do
    Write(Name[I], '.');
  WriteLn;
end.
