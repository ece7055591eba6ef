{ Methods with parameters of each mode and with results }
type TA = class
    n: Integer;
    procedure Add(x: Integer);
    function Text(const p: String): String;
    procedure Give(out s: String; var k: Integer);
  end;
procedure TA.Add(x: Integer); begin n := n + x end;
function TA.Text(const p: String): String; begin Str(n, Result); Result := p + Result end;
procedure TA.Give(out s: String; var k: Integer); begin s := s + Text('g'); k := k + n end;
var a: TA; t: String; i: Integer;
begin
  a := TA.Create;
  a.Add(3);
  a.Add(4);
  t := 'old';
  a.Give(t, i);
  WriteLn(a.Text('n='), t, i);
  a.Free
end.
