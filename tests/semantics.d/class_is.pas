{ is asks for the class or a descendant of it }
type
  TA = class end;
  TB = class(TA) end;
  TC = class(TA) end;
var a: TA;
procedure P;
begin
  WriteLn(a is TA, a is TB, a is TC, a is TObject)
end;
begin
  P;
  a := TA.Create; P; a.Free;
  a := TB.Create; P; a.Free
end.
