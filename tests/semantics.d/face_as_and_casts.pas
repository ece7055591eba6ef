{ As between interfaces and classes, with its exceptions; is of nil. }
uses SysUtils;
type
 II = interface procedure Go; end;
 IJ = interface procedure Ho; end;
 TT = class(TInterfacedObject, II) procedure Go; destructor Destroy; override; end;
 TU = class(TT, IJ) procedure Ho; end;
procedure TT.Go; begin WriteLn('go'); end;
procedure TU.Ho; begin WriteLn('ho'); end;
destructor TT.Destroy; begin WriteLn('gone'); inherited Destroy; end;
var x: II; t: TObject; s: String; k: Integer;
function F(const a: String; n: Integer): II; begin Result := TT.Create; WriteLn(a, 10 div n); end;
begin
 x := TU.Create;
 (x as IJ).Ho;
 t := TT.Create;
 try (t as TU).Ho; except on E: EInvalidCast do WriteLn(E.Message); end;
 try (t as IJ).Ho; except on E: EConvertError do WriteLn('no'); on E: Exception do WriteLn(E.ClassName); end;
 t.Free;
 s := 'u'; k := 0;
 try x := F('v' + s, k); except on E: EIntError do WriteLn(E.Message); end;
 x.Go;
 t := TU(nil);
 WriteLn(t is TT, Assigned(t));
 if x is IJ then WriteLn('is');
 try t.Free; t.Destroy; finally WriteLn('never'); end;
end.
