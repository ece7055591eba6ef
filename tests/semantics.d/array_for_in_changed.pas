{ for in goes over what it began with: the variable may change meanwhile }
var d: array of Integer; t: String; s: array[0..1] of Integer; i: Integer; c: Char;
begin
  SetLength(d, 3);
  d[2] := 5;
  for i in d do begin Write(i); d := nil end;
  t := 'abc';
  for c in t do begin Write(c); t := 'zzz' end;
  for i in s do begin Write(i); s[1] := 7 end;
  WriteLn(' ', Length(d), t, s[1])
end.
