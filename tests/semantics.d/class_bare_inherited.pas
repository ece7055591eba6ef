{ A bare inherited hands on the parameters, or does nothing where no ancestor has the routine }
type
  TA = class procedure P(n: Integer; s: String); virtual; end;
  TB = class(TA) procedure P(n: Integer; s: String); override; procedure Q; end;
procedure TA.P(n: Integer; s: String); begin WriteLn(n, s) end;
procedure TB.P(n: Integer; s: String);
begin
  n := n + 1;
  s := s + '!';
  inherited;
  WriteLn('B')
end;
procedure TB.Q; begin inherited; WriteLn('Q') end;
var b: TB;
begin
  b := TB.Create;
  b.P(1, 'x');
  b.Q;
  b.Free
end.
