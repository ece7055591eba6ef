{ Records and arrays of interfaces as results, by value, as out and const parameters. }
type
 II = interface end;
 TT = class(TInterfacedObject, II) N: Integer; constructor Create(k: Integer); destructor Destroy; override; end;
 TA = array[0..1] of II;
 TR = record S: String; X: II; A: TA; end;
 E = class end;
constructor TT.Create(k: Integer); begin N := k; end;
destructor TT.Destroy; begin WriteLn('d', N); inherited Destroy; end;
function Mk(k: Integer): TR; begin Result.X := TT.Create(k); Result.A[1] := TT.Create(k + 1); if k = 50 then raise E.Create; end;
procedure V(r: TR; out q: TR; const c: TR); begin WriteLn('v', Assigned(q.X), Assigned(c.X)); r.X := nil; q := r; end;
var a, b: TR;
begin
 a := Mk(1);
 a := Mk(3);
 try a := Mk(50); except WriteLn('c') end;
 b := Mk(60);
 V(a, b, Mk(30));
 WriteLn('e');
end.
