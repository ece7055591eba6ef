{ not as Free Pascal: it does not check casts. A cast to an enumeration is checked in any case: error 201. }
program CastOutOfRange;
type
  Light = (Red, Amber, Green);
var
  Number: Integer;
begin
  for Number := 0 to 3 do
    WriteLn(Ord(Light(Number)), ' ', Light(Number) = Amber);
end.
