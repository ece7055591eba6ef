{ Free of an object with an abstract destructor ends with 211. }
type A = class destructor Destroy; override; abstract; end;
var x: A;
begin x := A.Create; x.Free; WriteLn('freed'); end.
