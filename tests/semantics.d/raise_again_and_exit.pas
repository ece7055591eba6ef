{ Raise again, Exit, Continue and Break out of handlers, an exception that takes the place of one under way. }
type
 E = class N: Integer; constructor Create(k: Integer); destructor Destroy; override; end;
constructor E.Create(k: Integer); begin N := k; end;
destructor E.Destroy; begin WriteLn('d', N); inherited Destroy; end;
procedure P;
begin
 try
  try raise E.Create(1) finally WriteLn('f1'); raise E.Create(2); end;
 except
  on X: E do begin WriteLn('h', X.N); raise; end;
 end;
end;
function Q: Integer;
begin
 Result := 5;
 try P; except on X: E do begin try Exit(X.N + 10); finally WriteLn('fq'); end; end; end;
end;
var i: Integer; y: E;
begin
 WriteLn(Q);
 for i := 1 to 3 do
  try
   try raise E.Create(i + 20) except on X: E do begin if X.N = 21 then Continue; if X.N = 22 then Break; end; end;
  finally WriteLn('fin ', i) end;
 try raise E.Create(30) except on X: E do begin X.Free; WriteLn('x') end; end;
 try
  try y := E.Create(40); raise y; except on X: E do begin X := nil; raise; end; end;
 except WriteLn('again ', y.N) end;
 WriteLn('end');
end.
