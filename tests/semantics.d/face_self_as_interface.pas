{ Self as an interface argument in a constructor and in a destructor. }
type
 II = interface end;
 TT = class(TInterfacedObject, II) constructor Create; destructor Destroy; override; end;
var g: II;
procedure Q(const z: II); begin WriteLn('q'); end;
constructor TT.Create; begin Q(Self); WriteLn('c'); end;
destructor TT.Destroy; begin g := Self; g := nil; Q(Self); WriteLn('d'); inherited Destroy; end;
var t: TT;
begin
 t := TT.Create; Q(t); WriteLn(Assigned(t));
 t := TT.Create; g := t; t.Free;
end.
