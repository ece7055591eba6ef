{ Constructors with var, out and open array arguments, of which one raises and one has an index outside. }
type
 II = interface end;
 TT = class(TInterfacedObject, II) constructor Create(var s: String; out q: II; const z: array of II); destructor Destroy; override; end;
 E = class end;
constructor TT.Create(var s: String; out q: II; const z: array of II); begin s := s + 'k'; q := z[0]; if Length(s) = 3 then raise E.Create; end;
destructor TT.Destroy; begin WriteLn('d'); inherited Destroy; end;
var a: array of String; p, r: II; u: array of II; x: II;
begin
 SetLength(a, 1); SetLength(u, 1);
 a[0] := 'a'; a[0] := a[0] + 'b';
 try x := TT.Create(a[0], p, u); except WriteLn('c', a[0], Assigned(x)) end;
 a[0] := 'a';
 x := TT.Create(a[0], p, [r, x]);
 try x := TT.Create(a[7], p, [r, x]); finally WriteLn('z') end;
end.
