{ Brackets round an open array do not copy it; Copy does. }
var t: String;
procedure P(const a: array of String); var i: Integer;
begin for i := 0 to High(a) do WriteLn((a)[i]); WriteLn(Length((a))); end;
begin t := 'x'; P([t, t + 'y']); end.
