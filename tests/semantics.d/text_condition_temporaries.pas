{ Texts that are made for conditions of if, while, until and case }
var s: String;
function F(n: Integer): String;
begin
  Str(n, Result);
  Result := Result + '.'
end;
begin
  if F(1) + F(2) = '1.2.' then s := 'yes' else s := 'no';
  while Length(F(Length(s))) < 3 do s := s + 'abcd';
  repeat s := s + F(0) until s[Length(s)] = '.';
  case Length(s + F(1)) of
    0..5: WriteLn('short');
    6..99: WriteLn(s)
  end
end.
