{ A constructor's arguments run from left to right }
type TA = class s: String; constructor Create(const x, y: String); end;
constructor TA.Create(const x, y: String);
begin
  s := x + y
end;
function F(const t: String): String; begin WriteLn('F ', t); F := t end;
var a: TA;
begin
  a := TA.Create(F('1'), F('2'));
  WriteLn(a.s);
  a.Free
end.
