{ A property that is a method: the right side runs first, then the receiver }
type TA = class
    procedure SetN(v: Integer);
    property N: Integer write SetN;
  end;
var g: TA;
procedure TA.SetN(v: Integer); begin WriteLn('set ', v) end;
function Who: TA; begin Write('who '); Result := g end;
function What: Integer; begin Write('what '); Result := 3 end;
begin
  g := TA.Create;
  Who.N := What;
  g.Free
end.
