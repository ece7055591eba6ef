{ A function gives an instance, whose method is called at once }
type TA = class n: Integer; function Next: TA; end;
var g: TA;
function TA.Next: TA; begin n := n + 1; Result := Self end;
function Get: TA;
begin
  if g = nil then g := TA.Create;
  Result := g
end;
begin
  WriteLn(Get.Next.Next.n);
  Get.n := 10;
  WriteLn(Get().Next().n);
  Get.Free
end.
