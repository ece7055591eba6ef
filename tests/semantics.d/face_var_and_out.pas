{ Var and out interface arguments in arrays and fields, with the call that changes them. }
type
 II = interface function V: Integer; end;
 TT = class(TInterfacedObject, II) N: Integer; G: II; constructor Create(k: Integer); function V: Integer; destructor Destroy; override; end;
constructor TT.Create(k: Integer); begin N := k; end;
function TT.V: Integer; begin Result := N; end;
destructor TT.Destroy; begin WriteLn('d', N); inherited Destroy; end;
procedure S(var z: II; out w: II; k: Integer); begin WriteLn('s', Assigned(z), Assigned(w)); w := TT.Create(k); z := w; end;
var a: array of II; t, u: TT; x: II;
function K: Integer; begin x := nil; Result := 8; end;
begin
 SetLength(a, 2); a[0] := TT.Create(1); x := TT.Create(2);
 S(a[0], x, K);
 WriteLn(x.V, a[0].V);
 a := nil;
 t := TT.Create(3); t.G := x; u := TT.Create(4);
 S(t.G, u.G, 5);
 u.Free;
 WriteLn(u = nil, t.G.V);
 x := t; t := nil;
 S(u.G, x, 6);
end.
