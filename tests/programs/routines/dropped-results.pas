{ A function called as a statement does its work, and its value is dropped. }
program DroppedResults;
type
  Row = array [1..100] of Integer;
var
  Calls: Integer;

function Next: Integer;
begin
  Inc(Calls);
  Next := Calls;
end;

function Large(First: Integer): Row;
begin
  Result[1] := First;
  Inc(Calls, Result[1]);
end;

begin
  Next;
  Next();
  Large(10);
  WriteLn(Calls, ' ', Next, ' ', Next(), ' ', Calls);
end.
