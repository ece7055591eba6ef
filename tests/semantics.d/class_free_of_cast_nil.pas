{ Free of nil cast to a class does nothing. }
type A = class F: Integer; end;
var x: A;
begin x := A.Create; A(nil).Free; x.F := 3; WriteLn(x.F); end.
