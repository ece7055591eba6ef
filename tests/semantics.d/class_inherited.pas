{ Three levels: each one calls the ancestor's method, with a value that grows }
type
  TA = class function F(n: Integer): Integer; virtual; end;
  TB = class(TA) function F(n: Integer): Integer; override; end;
  TC = class(TB) function F(n: Integer): Integer; override; end;
function TA.F(n: Integer): Integer; begin Result := n end;
function TB.F(n: Integer): Integer; begin Result := inherited F(n + 1) * 10 end;
function TC.F(n: Integer): Integer; begin Result := inherited F(n) + 5 end;
var a: TA;
begin
  a := TC.Create;
  WriteLn(a.F(2));
  a.Free
end.
