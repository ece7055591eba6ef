{ A function gives a record; its field is read, it is stored, and it is thrown away }
type R = record s: String; a: array of Integer; end;
function F(n: Integer): R;
begin
  Str(n, Result.s);
  Result.s := Result.s + 'f';
  SetLength(Result.a, n);
  if n > 0 then Result.a[0] := n
end;
var x: R;
begin
  WriteLn(F(2).s, Length(F(3).a));
  x := F(4);
  F(1);
  WriteLn(x.s, x.a[0], F(7).a[0])
end.
