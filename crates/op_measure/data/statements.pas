{ Statements and expressions, each as the grammar takes it. }
begin
  x := 1; x := nil; x := a - b + c * d; x := a < b + c; x := 1; x := -a * b; x := -(a * b); x := not a and b;
  x := a in [1, 3..5]; x := []; x := [1..2, 4, x..y]; x := f(a, b:3)(c)[d, e].g; x := f(); x := 'abc'[1]; x := string(x);
  x := inherited Create(x); x := (a + b) * c; x := x as T; x := specialize + 1;
  f(x).g; (a).b := c; begin end; begin a; b; end;
  if a then b; if a then if b then c else d; if a then begin if b then c end else d;
  while a do b; c; repeat a; b until c; d;
  for i := 1 to 2 do x; for i := 1 downto 2 do x; for x in y do z;
  case a of 1: b; 2, 3..4: c; end; case a of 1: b else c; d end; case a of end; case a of 1: if b then c else d end;
  try a finally b end; try a except b end; try a except on E do b; end;
  try a except on x: u.E do b; on F do c else d end; try a except on; b end;
  raise; raise E.Create(x); inherited; inherited Create(x)
end.
