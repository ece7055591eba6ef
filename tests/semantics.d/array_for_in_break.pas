{ Break and Continue in for in over an open array and over a set }
type E = (red, green, blue);
var c: E;
procedure P(const a: array of String);
var s: String;
begin
  for s in a do begin
    if Length(s) = 0 then Continue;
    if s = 'stop' then Break;
    Write(s, ' ')
  end;
  WriteLn('| ', s)
end;
begin
  P(['one', '', 'two', 'stop', 'three']);
  for c in [blue, red] do begin
    Write(Ord(c));
    if c = blue then Break
  end;
  WriteLn(Ord(c))
end.
