{ Texts and other instances in fields are still there while the destructor runs }
type TA = class(TInterfacedObject)
    s: String; a: array of IUnknown;
    destructor Destroy; override;
  end;
destructor TA.Destroy;
begin
  WriteLn(s, Length(a));
  inherited Destroy;
  WriteLn(s, Length(a))
end;
var o: TA; x: IUnknown;
begin
  o := TA.Create;
  x := o;
  o.s := 'in';
  SetLength(o.a, 2);
  o.a[1] := TA.Create;
  x := nil;
  WriteLn('end')
end.
