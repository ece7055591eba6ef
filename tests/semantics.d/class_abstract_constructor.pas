{ An abstract constructor ends with 211 once its object is made. }
type A = class constructor Create; virtual; abstract; end;
var x: A;
begin x := A.Create; WriteLn('made'); end.
