{ not as Free Pascal: it checks nothing here. Succ of the last value of an enumeration is error 201. }
program SuccessorPastEnd;
type
  Light = (Red, Amber, Green);
var
  Shown: Light;
begin
  Shown := Red;
  while True do
  begin
    WriteLn(Ord(Shown));
    Shown := Succ(Shown);
  end;
end.
