{ Exceptions through activations that hold interfaces whose destructors raise and handle; for in, Continue. }
type
 E = class N: Integer; constructor Create(k: Integer); destructor Destroy; override; end;
 II = interface end;
 TT = class(TInterfacedObject, II) destructor Destroy; override; end;
constructor E.Create(k: Integer); begin N := k; end;
destructor E.Destroy; begin WriteLn('d', N); inherited Destroy; end;
destructor TT.Destroy; begin try raise E.Create(7) except on X: E do WriteLn('in ', X.N) end; inherited Destroy; end;
function Mk: II; begin Result := TT.Create; end;
procedure R(const a: II; const s: String; k: Integer); var l: II; begin l := Mk; if k > 0 then R(l, s + 'x', k - 1) else raise E.Create(Length(s)); end;
var i: Integer; s: String; arr: array of II; v: II;
begin
 try
  SetLength(arr, 2); arr[0] := Mk; arr[1] := Mk;
  for v in arr do
   for i := 1 to 2 do
    try
     try R(Mk, 'y', 1); finally if i = 2 then WriteLn('two'); end;
    except on X: E do begin if i <> 2 then Continue; raise; end; end;
 except on X: E do begin WriteLn('out ', X.N); raise X; end; end;
end.
