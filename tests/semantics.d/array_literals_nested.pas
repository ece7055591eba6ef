{ Calls with record results in array constructors, nested; copies in a loop. }
type
 TR = record N: Integer; S: String; end;
 E = class end;
function F(const r: TR; const q: array of TR): TR; begin Result := r; Result.S := Result.S + q[1].S; if q[0].N = 9 then raise E.Create; end;
procedure W(const a: array of Integer; const b: array of Integer); begin WriteLn(a[0], Length(b), b[0]); end;
function G(const a: array of Integer): Integer; begin Result := a[0] + a[1]; end;
var x, y: TR; i: Integer; z: array[0..2] of TR; t: String;
begin
 t := 'm';
 x.N := 1; x.S := t + 'a'; y.N := 9; y.S := t + 'b';
 x := F(F(x, [x, y]), [x, x]);
 WriteLn(x.S);
 try z[1] := F(x, [y, x]); except WriteLn('c') end;
 W([G([1, 2]), 4], [G([5, G([6, 7])])]);
 for i := 0 to 1 do begin z[i] := x; if i = 1 then Continue; end;
 WriteLn(z[0].S, z[2].S, z[1].S);
end.
