{ The receiver of a property and of a method is found first; an argument frees it. }
type
 A = class F: Integer; procedure SetF(v: Integer); function GetF: Integer; property P: Integer read GetF write SetF; procedure M(n: Integer); end;
procedure A.SetF(v: Integer); begin WriteLn('set', v); F := v; end;
function A.GetF: Integer; begin WriteLn('get'); Result := F; end;
procedure A.M(n: Integer); begin WriteLn('m', n); end;
var x: A;
function R: A; begin WriteLn('r'); Result := x; end;
function N: Integer; begin WriteLn('n'); x.Free; Result := 7; end;
begin
 x := A.Create; R.P := R.P + 1; R.M(R.P);
 FreeAndNil(x); x.Free;
 x := A.Create;
 R.M(N);
end.
