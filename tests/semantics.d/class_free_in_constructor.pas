{ Free of an instance while its constructor runs }
type TA = class constructor Create; end;
constructor TA.Create;
begin
  WriteLn('in');
  Self.Free;
  WriteLn('never')
end;
var a: TA;
begin
  a := TA.Create
end.
