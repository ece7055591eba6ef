{ The name of an instance's class, also within its methods }
type
  ta = class procedure P; end;
  tb = class(ta) end;
procedure ta.P; begin WriteLn(Self.ClassName, '.P') end;
var a: ta; s: String;
begin
  a := tb.Create;
  a.P;
  s := a.ClassName;
  s[1] := 'T';
  WriteLn(s, ' ', a.ClassName);
  a.Free
end.
