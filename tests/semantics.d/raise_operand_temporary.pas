{ A temporary of the operand of raise is ended before the exception is under way. }
type E = class constructor Create(const s: String); end;
constructor E.Create(const s: String); begin end;
var t: String;
begin t := 'x'; try raise E.Create('bad ' + t); except WriteLn('c'); end; WriteLn(t + 'y'); end.
