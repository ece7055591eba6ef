{ Virtual, hidden and static methods of four generations, inherited with and without a name. }
type
 TA = class procedure V; virtual; procedure W; virtual; abstract; procedure Z; end;
 TB = class(TA) procedure V; override; procedure W; override; procedure Z; end;
 TC = class(TB) procedure V; virtual; procedure W; override; end;
 TD = class(TC) procedure V; override; procedure Z; end;
procedure TA.V; begin WriteLn('AV'); end;
procedure TA.Z; begin WriteLn('AZ'); V; end;
procedure TB.V; begin WriteLn('BV'); inherited V; end;
procedure TB.W; begin WriteLn('BW'); end;
procedure TB.Z; begin WriteLn('BZ'); inherited; end;
procedure TC.V; begin WriteLn('CV'); end;
procedure TC.W; begin WriteLn('CW'); inherited W; end;
procedure TD.V; begin WriteLn('DV'); inherited V; end;
procedure TD.Z; begin WriteLn('DZ'); V; inherited; end;
var a: TA; b: TB; c: TC; d: TD;
begin
 d := TD.Create; a := d; b := d; c := d;
 a.V; b.V; c.V; d.V; a.Z; b.Z; c.Z; d.Z; a.W;
 WriteLn(a is TB, a is TD, d is TA, a.ClassName);
 d.Free; WriteLn(Assigned(a));
 a := TA.Create; WriteLn(a is TB); a.W;
end.
