{ A record with a text: by value, as const, as var, as out }
type R = record s: String; n: Integer; end;
var x: R;
procedure V(a: R); begin a.s := a.s + '1'; WriteLn(a.s, a.n) end;
procedure C(const a: R); begin WriteLn(a.s, a.n) end;
procedure W(var a: R); begin a.s := a.s + '2'; Inc(a.n) end;
procedure O(out a: R); begin WriteLn(Length(a.s)); a.s := 'out' end;
begin
  x.s := 'x';
  x.n := 3;
  V(x);
  C(x);
  W(x);
  C(x);
  O(x);
  WriteLn(x.s)
end.
