unit u;
interface
uses a, b;
type
  t = class(a, b)
    x: Integer;
  private
    procedure p; virtual;
    property q: t read x write x;
  end;
  i = interface(a) ['id'] destructor d; end;
procedure w(out n: string; m: a.b); overload;
implementation
type
  s = set of (r, g);
  v = packed array [1..2] of record f, h: -1..2; k: string end;
const z: v = ((1, 2), (n: 3; m: (4)));
var o: a.b = 1;
constructor t.p;
begin end;
initialization
finalization
end.
