{ Methods called through an interface, with parameters and results }
type
  IA = interface
    procedure Add(n: Integer);
    function Text(const s: String): String;
  end;
  TA = class(TInterfacedObject, IA)
    f: Integer;
    procedure Add(n: Integer);
    function Text(const s: String): String;
  end;
procedure TA.Add(n: Integer); begin f := f + n end;
function TA.Text(const s: String): String; begin Str(f, Result); Result := s + Result end;
var x: IA;
begin
  x := TA.Create;
  x.Add(4);
  x.Add(5);
  WriteLn(x.Text('f='), Length(x.Text('')))
end.
