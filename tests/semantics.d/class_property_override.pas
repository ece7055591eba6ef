{ A property of the ancestor whose reader the descendant overrides }
type
  TA = class
  private
    f: Integer;
  protected
    function Get: Integer; virtual;
  public
    property N: Integer read Get write f;
  end;
  TB = class(TA)
  protected
    function Get: Integer; override;
  end;
function TA.Get: Integer; begin Result := f end;
function TB.Get: Integer; begin Result := inherited Get * 2 end;
var a: TA;
begin
  a := TB.Create;
  a.N := 7;
  a.N := a.N + 1;
  WriteLn(a.N);
  a.Free
end.
