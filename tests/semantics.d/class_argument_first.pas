{ A constructor's argument runs before its body }
type TA = class s: String; constructor Create(const x: String); end;
constructor TA.Create(const x: String);
begin
  WriteLn('create');
  s := x + '.'
end;
function F(const t: String): String; begin WriteLn('F ', t); F := t end;
var a: TA;
begin
  a := TA.Create(F('1'));
  WriteLn(a.s);
  a.Free
end.
