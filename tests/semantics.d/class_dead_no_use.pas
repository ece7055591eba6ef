{ A reference to a dead instance may be copied and compared }
type TA = class n: Integer; end;
var a, b: TA; c: array of TA;
begin
  a := TA.Create;
  a.Free;
  b := a;
  SetLength(c, 1);
  c[0] := b;
  WriteLn(a = b, Assigned(a), b <> nil, c[0] = a)
end.
