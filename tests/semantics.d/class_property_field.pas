{ Properties that are fields: whole, indexed, and as elements of an array }
type
  T = array of Integer;
  TA = class
    fs: String; fa: T;
    property S: String read fs write fs;
    property A: T read fa write fa;
  end;
var x: TA; d: T;
begin
  x := TA.Create;
  x.S := 'abc';
  SetLength(d, 2);
  x.A := d;
  x.A[1] := 6;
  WriteLn(x.S, x.S[2], Length(x.S), Length(x.A), d[1]);
  x.Free
end.
