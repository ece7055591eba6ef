{ Low of a text looks at the place: a field of nil ends with 216. }
type A = class F: String; end;
var o: A;
begin WriteLn('b'); WriteLn(Low(o.F)); end.
