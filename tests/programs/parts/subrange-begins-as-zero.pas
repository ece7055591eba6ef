{ not as Free Pascal: it takes for granted that a variable is within its subrange. All variables begin as zero, also where their type lacks it. }
program SubrangeBeginsAsZero;
var
  X: 1..5;
begin
  WriteLn(X, ' ', X >= 1);
end.
