{ A method frees its receiver and stores in a var argument of it. }
type TT = class A: array[0..1] of String; procedure M(var s: String; const t: String); end;
var x: TT; i: Integer;
procedure TT.M(var s: String; const t: String); begin WriteLn(s, t); x.Free; WriteLn('freed', t); s := 'q'; end;
begin
 x := TT.Create; i := 1; x.A[i] := 'u'; x.A[i] := x.A[i] + 'v'; x.M(x.A[i], x.A[i] + 'w');
end.
