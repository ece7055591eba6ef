{ not as Free Pascal: it does not check casts. A cast to Boolean takes 0 and 1 alone: error 201. }
program CastToTruth;
var
  Number: Integer;
begin
  for Number := 0 to 2 do
    WriteLn(Boolean(Number));
end.
