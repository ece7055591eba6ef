{ The temporaries of the operand of Halt are ended though the call in it raises. }
type E = class constructor Create; end;
constructor E.Create; begin end;
function F(const s: String): Integer; begin Result := 0; raise E.Create; end;
var t: String;
begin t := 'x'; try Halt(F('bad ' + t)); except WriteLn('c'); end; WriteLn(t + 'y'); end.
