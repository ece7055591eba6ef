{ A virtual method called by the ancestor's constructor is the descendant's own }
type
  TA = class constructor Create; procedure P; virtual; end;
  TB = class(TA) s: String; constructor Create; procedure P; override; end;
constructor TA.Create; begin P end;
procedure TA.P; begin WriteLn('A') end;
constructor TB.Create; begin s := 'set'; inherited Create; P end;
procedure TB.P; begin WriteLn('B ', s); s := s + '+' end;
var a: TA;
begin
  a := TB.Create;
  a.P;
  a.Free
end.
