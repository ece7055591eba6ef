unit Boxes; interface
type TBox=class(TObject)private FSize:Integer;public procedure Grow;virtual;
property Size:Integer read FSize write Grow;end;
IBox=interface['{1}']procedure Grow();end; procedure Later;
implementation uses SysUtils; procedure Later;forward;
procedure TBox.Grow;begin try case Size of 1,3..5:raise end
except on E:SysUtils.Exception do inherited Free end end;
finalization end.
