{ A destructor that frees what its instance owns, nil too }
type TA = class
    s: String; o: TA;
    constructor Create(const t: String);
    destructor Destroy; override;
  end;
constructor TA.Create(const t: String);
begin
  s := t + '.';
  if Length(t) < 3 then o := TA.Create(t + 'x')
end;
destructor TA.Destroy;
begin
  o.Free;
  WriteLn(s);
  inherited Destroy
end;
var a: TA;
begin
  a := TA.Create('a');
  WriteLn(a.o.s);
  a.Free
end.
