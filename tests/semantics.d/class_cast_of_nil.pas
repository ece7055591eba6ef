{ A field of nil cast to a class ends with 216. }
type A = class F: Integer; end;
var x: A;
begin x := A.Create; x.F := 3; WriteLn(A(nil).F); end.
