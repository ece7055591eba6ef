{ Two constructors, one calls the ancestor's, one leaves early }
type
  TA = class n: Integer; constructor Create; constructor From(x: Integer); end;
  TB = class(TA) constructor From(x: Integer); end;
constructor TA.Create; begin n := 1 end;
constructor TA.From(x: Integer); begin if x < 0 then Exit; n := x end;
constructor TB.From(x: Integer); begin inherited From(x + 1); n := n * 10 end;
procedure P(a: TA);
begin
  WriteLn(a.n);
  a.Free
end;
begin
  P(TA.Create);
  P(TA.From(4));
  P(TA.From(-4));
  P(TB.From(4));
  P(TB.Create)
end.
