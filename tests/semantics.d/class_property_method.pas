{ Properties that are methods, read and write }
type TA = class
    f: String;
    function GetS: String;
    procedure SetS(const v: String);
    property S: String read GetS write SetS;
    property R: String read f;
  end;
function TA.GetS: String; begin Write('get '); Result := '<' + f + '>' end;
procedure TA.SetS(const v: String); begin WriteLn('set ', v); f := f + v end;
var a: TA;
begin
  a := TA.Create;
  a.S := 'x';
  a.S := a.S + 'y';
  WriteLn(a.S, a.R, a.S[2], Length(a.S));
  a.Free
end.
