{ An instance that nobody frees: its destructor does not run at the end }
type TA = class s: String; destructor Destroy; override; end;
destructor TA.Destroy; begin WriteLn('never'); inherited Destroy end;
var a: TA;
begin
  a := TA.Create;
  a.s := 'x';
  a.s := a.s + 'y';
  WriteLn(a.s);
  a := nil;
  WriteLn('end')
end.
