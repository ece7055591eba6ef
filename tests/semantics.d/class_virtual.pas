{ A virtual method is chosen by the instance; a reintroduced one begins anew }
type
  TA = class procedure P; virtual; procedure Q; virtual; end;
  TB = class(TA) procedure P; override; procedure Q; reintroduce; end;
procedure TA.P; begin WriteLn('A.P'); Q end;
procedure TA.Q; begin WriteLn('A.Q') end;
procedure TB.P; begin WriteLn('B.P'); Q end;
procedure TB.Q; begin WriteLn('B.Q') end;
var a: TA;
begin
  a := TB.Create;
  a.P;
  a.Q;
  a.Free;
  a := TA.Create;
  a.P;
  a.Free
end.
