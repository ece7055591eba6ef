unit SysUtils;
interface
type
  Exception = class(TObject)
  private
    FMessage: String;
  public
    constructor Create(const AMessage: String);
    property Message: String read FMessage write FMessage;
  end;
  EConvertError = class(Exception) end;
  EInvalidCast = class(Exception) end;
  EIntError = class(Exception) end;
  EDivByZero = class(EIntError) end;
  ERangeError = class(EIntError) end;
  EIntOverflow = class(EIntError) end;
function IntToStr(Value: Integer): String;
function StrToInt(const S: String): Integer;
function StrToIntDef(const S: String; ADefault: Integer): Integer;
function TryStrToInt(const S: String; out Value: Integer): Boolean;
function UpperCase(const S: String): String;
function LowerCase(const S: String): String;
function Trim(const S: String): String;
implementation
constructor Exception.Create(const AMessage: String);
begin FMessage := AMessage; end;
function IntToStr(Value: Integer): String;
begin Str(Value, Result); end;
function StrToInt(const S: String): Integer;
var Code: Integer;
begin
  Val(S, Result, Code);
  if Code <> 0 then
    raise EConvertError.Create('"' + S + '" is an invalid integer');
end;
function StrToIntDef(const S: String; ADefault: Integer): Integer;
var Code: Integer;
begin
  Val(S, Result, Code);
  if Code <> 0 then Result := ADefault;
end;
function TryStrToInt(const S: String; out Value: Integer): Boolean;
var Code: Integer;
begin
  Val(S, Value, Code);
  Result := Code = 0;
end;
function UpperCase(const S: String): String;
var I: Integer;
begin
  Result := S;
  for I := 1 to Length(S) do
    if (S[I] >= 'a') and (S[I] <= 'z') then Result[I] := Chr(Ord(S[I]) - 32);
end;
function LowerCase(const S: String): String;
var I: Integer;
begin
  Result := S;
  for I := 1 to Length(S) do
    if (S[I] >= 'A') and (S[I] <= 'Z') then Result[I] := Chr(Ord(S[I]) + 32);
end;
function Trim(const S: String): String;
var I, J: Integer;
begin
  I := 1; J := Length(S);
  while (I <= J) and (S[I] <= ' ') do I := I + 1;
  while (J >= I) and (S[J] <= ' ') do J := J - 1;
  Result := Copy(S, I, J - I + 1);
end;
end.
