{ Fields of a descendant stand behind the ancestor's and are found through any variable }
type
  TA = class s: String; c: Char; end;
  TB = class(TA) b: Byte; t: String; end;
var a: TA; b: TB;
begin
  b := TB.Create;
  a := b;
  a.s := 'one';
  b.c := 'c';
  b.b := 250;
  b.t := a.s + b.c;
  Inc(b.b, 10);
  WriteLn(b.s, a.c, b.b, TB(a).t);
  a.Free
end.
