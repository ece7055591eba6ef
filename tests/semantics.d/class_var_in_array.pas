{ An element of an array in a field is held for the call, also when the instance goes }
type TA = class d: array of String; end;
var a: TA;
procedure P(var s: String);
begin
  a.Free;
  s := s + '!';
  WriteLn(s)
end;
begin
  a := TA.Create;
  SetLength(a.d, 1);
  a.d[0] := 'kept';
  P(a.d[0])
end.
