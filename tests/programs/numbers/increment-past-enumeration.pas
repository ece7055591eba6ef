{ not as Free Pascal: it checks under R alone. Inc of an enumeration past its last value is error 201 in any case. }
program IncrementPastEnumeration;
type
  Light = (Red, Amber, Green);
var
  Shown: Light;
begin
  Shown := Red;
  repeat
    WriteLn(Ord(Shown));
    Inc(Shown);
  until False;
end.
