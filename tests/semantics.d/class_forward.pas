{ Two classes that know each other, and Self given to another instance }
type
  TB = class;
  TA = class n: Integer; procedure Show(b: TB); end;
  TB = class a: TA; constructor Create(x: TA); procedure Tell(const s: String); end;
procedure TA.Show(b: TB); begin n := n + 1; b.Tell('shown') end;
constructor TB.Create(x: TA); begin a := x; a.Show(Self) end;
procedure TB.Tell(const s: String); begin WriteLn(s, a.n) end;
var a: TA; b: TB;
begin
  a := TA.Create;
  b := TB.Create(a);
  a.Show(b);
  b.Free;
  a.Free
end.
