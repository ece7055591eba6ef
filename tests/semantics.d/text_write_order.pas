{ Items are written one after the other: a call writes before its own item }
var s: String;
function F: String;
begin
  Write('(f)');
  s := 'changed';
  F := 'f'
end;
begin
  s := 'first';
  WriteLn(s, ' ', F, ' ', s)
end.
