program p(output);
const c: Integer = 1;
function f(var a: Integer; b: array of string): Integer; forward;
begin
  if not a then b := -1 + (2) else while c do Inc(d);
  case x of 1, 2..3: y; else z end;
  repeat for i := 1 to 2 do ; for j in s do Break until a <> [1..2];
  try u.v[1, 2]('s'.a):= nil except on E: a.B do raise; end;
  try WriteLn(a: 1) finally inherited f end
end.
