{ A constructor with an interface argument raises, destructors raise under Free and under a store of nil. }
type
 E = class N: Integer; constructor Create(k: Integer); destructor Destroy; override; end;
 II = interface procedure Go; end;
 TT = class(TInterfacedObject, II) S: String; J: II; constructor Create(k: Integer; const z: II); procedure Go; destructor Destroy; override; end;
constructor E.Create(k: Integer); begin N := k; end;
destructor E.Destroy; begin WriteLn('d', N); inherited Destroy; end;
constructor TT.Create(k: Integer; const z: II); begin S := 'n'; S := S + 'm'; J := z; if k = 1 then raise E.Create(k); end;
procedure TT.Go; begin WriteLn('go'); end;
destructor TT.Destroy; begin WriteLn('gone ', S); if S = 'nmx' then raise E.Create(9); inherited Destroy; end;
var t: TT; x: II;
begin
 try x := TT.Create(1, TT.Create(0, nil)); except on Z: E do WriteLn('c ', Z.N) end;
 t := TT.Create(0, TT.Create(0, nil)); t.S := t.S + 'x';
 try t.Free; except on Z: E do WriteLn('c ', Z.N) end;
 x := TT.Create(0, nil);
 x.Go;
 x := nil;
 WriteLn('last');
 t := TT.Create(0, nil); t.S := t.S + 'x';
 x := t;
 try x := nil; except WriteLn('never') end;
end.
