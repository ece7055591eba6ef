{ not as Free Pascal: there a result begins as anything. It begins as zero at each call. }
program ResultBeginsAsZero;
type
  Pair = record
    a, b: Byte;
    c: array [1..2] of Integer;
  end;

function Nothing: Integer;
begin
end;

function Counted(n: Integer): Integer;
begin
  if n > 0 then Result := Result + n;
end;

function Half(n: Byte): Pair;
begin
  Result.b := n;
  Result.c[2] := Result.c[2] + n;
end;

begin
  WriteLn(Nothing, ' ', Counted(5), ' ', Counted(0), ' ', Counted(-1), ' ', Counted(6));
  WriteLn(Half(9).a, ' ', Half(9).b, ' ', Half(9).c[1], ' ', Half(9).c[2], ' ', Half(3).c[2]);
end.
