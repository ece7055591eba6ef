{ Fields that hold texts, arrays and records are emptied when the instance goes }
type
  R = record t: String; n: Integer; end;
  TA = class s: String; a: array of String; x: R; f: array[0..1] of String; end;
var o: TA; k: String;
begin
  o := TA.Create;
  o.s := 'ab';
  o.s := o.s + 'c';
  SetLength(o.a, 2);
  o.a[1] := o.s;
  o.x.t := o.a[1] + 'd';
  o.f[1] := o.x.t;
  k := o.f[1];
  o.Free;
  WriteLn(k)
end.
