{ A method may free its own instance; a field is a use after that }
type TA = class n: Integer; procedure P; destructor Destroy; override; end;
destructor TA.Destroy; begin WriteLn('gone'); inherited Destroy end;
procedure TA.P;
begin
  n := 1;
  Self.Free;
  WriteLn('still in P');
  WriteLn(n)
end;
var a: TA;
begin
  a := TA.Create;
  a.P
end.
