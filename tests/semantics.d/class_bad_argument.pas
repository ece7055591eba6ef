{ A bad index in a constructor's argument: nothing is made, so nothing is destroyed }
uses SysUtils;
type TA = class constructor Create(n: Integer); destructor Destroy; override; end;
constructor TA.Create(n: Integer); begin WriteLn('never') end;
destructor TA.Destroy; begin WriteLn('never'); inherited Destroy end;
var a: array[0..1] of Integer; i: Integer; x: TA;
begin
  i := 2;
  try
    x := TA.Create(a[i]);
  except
    on E: ERangeError do WriteLn('caught')
  end;
  WriteLn(x = nil)
end.
