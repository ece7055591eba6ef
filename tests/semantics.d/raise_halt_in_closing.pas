{ Halt in a destructor that the end of the program runs. }
type
 II = interface end;
 TT = class(TInterfacedObject, II) N: Integer; constructor Create(k: Integer); destructor Destroy; override; end;
constructor TT.Create(k: Integer); begin N := k; end;
destructor TT.Destroy; begin WriteLn('d', N); if N = 2 then Halt(5 + 256); inherited Destroy; end;
var a, b, c: II;
procedure P; var l: II; begin l := TT.Create(4); try Halt(9); finally WriteLn('no') end; end;
begin
 a := TT.Create(1); b := TT.Create(2); c := TT.Create(3);
 P;
end.
