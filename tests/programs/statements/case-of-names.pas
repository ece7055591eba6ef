{ case over enumerations and Booleans, within one another, with constants as labels. }
program CaseOfNames;
type
  Light = (Red, Amber, Green, Off);
const
  First = Red;
var
  Shown: Light;
  Night: Boolean;
begin
  for Shown := Red to Off do
    for Night := False to True do
    begin
      case Night of
        True: Write('night ');
        False: Write('day ');
      end;
      case Shown of
        First: WriteLn('stop');
        Amber, Off:
          case Night of
            False: WriteLn('wait');
            True: WriteLn('slow');
          end;
        Green: WriteLn('go');
      end;
    end;
  case Shown = Off of
    True: WriteLn('off');
  end;
end.
