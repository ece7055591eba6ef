{ Literals, texts and arrays by value are made in the order of the arguments. }
var t: String; y: array of Integer;
procedure P(const a: array of Integer; const s: String; b: array of Integer); begin WriteLn(Length(a), Length(b)); if Length(a) > 0 then WriteLn(a[0], a[1], s); end;
begin t := 'q'; SetLength(y, 3); P([8, 9], t, y); end.
