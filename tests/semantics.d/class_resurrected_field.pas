{ A field of a destroyed object gets a text in a destructor that its end runs. }
type
 II = interface end;
 TB = class;
 TA = class(TInterfacedObject, II) O: TB; destructor Destroy; override; end;
 TB = class S: String; X: II; end;
destructor TA.Destroy; begin O.S := 'again'; inherited Destroy; end;
var b: TB; a: TA;
begin
 b := TB.Create; a := TA.Create; a.O := b; b.X := a; b.Free; WriteLn('x');
end.
