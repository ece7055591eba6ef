"""A reader for small Pascal programs: text to a typed tree.

It is a second, independent reading of the language for tests of what programs mean: `interpreter.py` runs its trees, and `typed_core.py` writes
them down as typed programs of op_core. It trusts that its text is right, and refuses nothing with care.

Types are instances of Type, expressions of Expr (with `type`), statements of Stmt; the names of their fields are in `fields` beside each kind.
"""
import re

TOKEN = re.compile(r"\s+|\{[^}]*\}|//[^\n]*|(?P<id>[A-Za-z_]\w*)|(?P<num>\$[0-9A-Fa-f]+|\d+)|(?P<str>(?:'(?:[^'\n]|'')*'|#\d+)+)|(?P<sym>:=|<=|>=|<>|\.\.|[-+*/=<>()\[\],;:.@^])")


class Node:
    def __init__(self, kind, **fields):
        self.kind = kind
        self.__dict__.update(fields)

    def __repr__(self):
        return self.kind


Type = Expr = Stmt = Node


def simple(kind, number, **fields):
    return Type(kind, number=number, name=kind, **fields)


SHORTINT, BYTE, SMALLINT, WORD = (simple("integer", n, low=l, high=h) for n, l, h in [(0, -128, 127), (1, 0, 255), (2, -32768, 32767), (3, 0, 65535)])
INTEGER = simple("integer", 4, low=-2147483648, high=2147483647)
BOOLEAN, CHAR, STRING, NIL = simple("boolean", 5, low=0, high=1), simple("char", 6, low=0, high=255), simple("string", 7), simple("nil", 8)
EMPTY_SET = simple("emptyset", 10)
NAMED = {"shortint": SHORTINT, "byte": BYTE, "smallint": SMALLINT, "word": WORD, "integer": INTEGER, "longint": INTEGER, "boolean": BOOLEAN, "char": CHAR, "string": STRING, "ansistring": STRING}


def is_ordinal(t):
    return t.kind in ("integer", "boolean", "char", "enumeration", "subrange")


def host(t):
    return t.base if t.kind == "subrange" else t


def is_managed(t):
    if t.kind in ("string", "dynamic", "interface", "open"):
        return True
    if t.kind == "record":
        return any(is_managed(f.type) for f in t.fields)
    return t.kind == "array" and is_managed(t.element)


class Variable:
    """role: global, parameter (with mode value, const, var, out), result, local, object, handler."""

    def __init__(self, name, type, role, mode=None, first=None):
        self.name, self.type, self.role, self.mode, self.first = name, type, role, mode, first
        self.number = None

    @property
    def by_reference(self):
        return self.role == "parameter" and (self.mode in ("var", "out") or self.type.kind == "open" and self.mode == "const")


class Field:
    def __init__(self, name, type):
        self.name, self.type, self.number = name, type, None


class Routine:
    """kind: procedure, function, constructor, destructor. owner: None, a class or an interface. binding: static, virtual, override."""

    def __init__(self, name, kind, parameters, result, owner=None, binding="static", abstract=False):
        self.name, self.kind, self.parameters, self.owner, self.binding, self.abstract = name, kind, parameters, owner, binding, abstract
        self.result = Variable("result", result, "result") if result else None
        self.object = Variable("self", owner, "object") if owner is not None else None
        self.locals, self.body, self.number = [], None, None

    @property
    def variables(self):
        return ([self.object] if self.object else []) + self.parameters + ([self.result] if self.result else []) + self.locals


class Program:
    def __init__(self):
        self.types, self.classes, self.interfaces, self.routines, self.globals, self.main = [], [], [], [], [], []
        self.exceptions = False


class Reader:
    def __init__(self, text):
        self.tokens, self.at = [], 0
        self.q = self.r = False
        place = 0
        while place < len(text):
            m = TOKEN.match(text, place)
            if not m:
                raise SyntaxError(text[place : place + 30])
            piece = m.group(0)
            if piece.startswith("{$"):
                for switch in piece[2:-1].split(","):
                    if switch[:1].upper() == "Q":
                        self.q = switch[1:2] == "+"
                    if switch[:1].upper() == "R":
                        self.r = switch[1:2] == "+"
            elif m.lastgroup:
                self.tokens.append((m.lastgroup, piece, self.q, self.r))
            place = m.end()
        self.tokens.append(("end", "", self.q, self.r))
        self.program = Program()
        self.names = [dict()]
        self.routine = None
        self.loops = 0

    # ---- tokens

    def peek(self, k=0):
        return self.tokens[self.at + k][1].lower()

    def is_(self, *words):
        return self.peek() in words

    def next(self):
        token = self.tokens[self.at]
        self.at += 1
        return token

    def take(self, word):
        if self.peek() != word:
            raise SyntaxError(f"{word} and not {' '.join(t[1] for t in self.tokens[self.at : self.at + 8])}")
        return self.next()

    def accept(self, word):
        if self.peek() == word:
            self.at += 1
            return True
        return False

    def name(self):
        group, text, _, _ = self.next()
        if group != "id":
            raise SyntaxError(f"a name and not {text}")
        return text.lower()

    # ---- names

    def find(self, name):
        for scope in reversed(self.names):
            if name in scope:
                return scope[name]
        return None

    def declare(self, name, thing):
        self.names[-1][name] = thing

    # ---- types

    def new_type(self, t):
        t.number = 16 + len(self.program.types)
        self.program.types.append(t)
        return t

    def constant_number(self):
        sign = -1 if self.accept("-") else 1
        e = self.primary()
        return sign * e.value

    def type(self, name=None):
        if self.accept("packed"):
            return self.type(name)
        if self.accept("("):
            values = [self.name()]
            while self.accept(","):
                values.append(self.name())
            self.take(")")
            t = self.new_type(Type("enumeration", low=0, high=len(values) - 1, count=len(values)))
            for k, v in enumerate(values):
                self.names[0][v] = Expr("ordinal", type=t, value=k)
            return t
        if self.accept("record"):
            fields = []
            while not self.accept("end"):
                fields += self.fields()
            t = Type("record", fields=fields)
            return self.new_type(t)
        if self.accept("array"):
            if self.accept("["):
                bounds = [self.index_type()]
                while self.accept(","):
                    bounds.append(self.index_type())
                self.take("]")
                self.take("of")
                t = self.type()
                for b in reversed(bounds):
                    t = self.new_type(Type("array", index=b, element=t))
                return t
            self.take("of")
            return self.dynamic(self.type())
        if self.accept("set"):
            self.take("of")
            base = self.type()
            return self.new_type(Type("set", base=base))
        if self.is_("class"):
            return self.class_type(name)
        if self.is_("interface"):
            return self.interface_type(name)
        if self.tokens[self.at][0] == "id" and self.peek(1) != "..":
            n = self.name()
            return NAMED.get(n) or self.find(n)
        return self.subrange()

    def subrange(self):
        low = self.simple()
        self.take("..")
        high = self.simple()
        return self.new_type(Type("subrange", base=low.type, low=low.value, high=high.value))

    def index_type(self):
        if self.tokens[self.at][0] == "id" and self.peek(1) in ("]", ","):
            n = self.name()
            return NAMED.get(n) or self.find(n)
        return self.subrange()

    def dynamic(self, element):
        for t in self.program.types:
            if t.kind == "dynamic" and t.element is element:
                return t
        return self.new_type(Type("dynamic", element=element))

    def open(self, element):
        for t in self.program.types:
            if t.kind == "open" and t.element is element:
                return t
        return self.new_type(Type("open", element=element))

    def fields(self):
        names = [self.name()]
        while self.accept(","):
            names.append(self.name())
        self.take(":")
        t = self.type()
        if not self.is_("end"):
            self.take(";")
        return [Field(n, t) for n in names]

    def class_type(self, name):
        self.take("class")
        old = self.find(name) if name else None
        ancestor, faces = self.find("tobject") if name != "tobject" else None, []
        if self.accept("("):
            ancestor = self.find(self.name())
            while self.accept(","):
                faces.append(self.find(self.name()))
            self.take(")")
        t = old if isinstance(old, Node) and old.kind == "class" else None
        if self.is_(";") and t is None and not faces and self.tokens[self.at - 1][1].lower() == "class":
            return self.forward_class(name)
        if t is None:
            t = self.forward_class(name)
        t.ancestor, t.faces, t.fields, t.methods, t.properties, t.members = ancestor, faces, [], [], [], dict(ancestor.members) if ancestor else {}
        if self.is_(";"):
            return t
        while not self.accept("end"):
            if self.accept("private") or self.accept("protected") or self.accept("public") or self.accept("published"):
                continue
            if self.is_("procedure", "function", "constructor", "destructor"):
                r = self.heading(t)
                t.methods.append(r)
                t.members[r.name] = r
            elif self.accept("property"):
                n = self.name()
                self.take(":")
                of = self.type()
                read = t.members[self.name()] if self.accept("read") else None
                write = t.members[self.name()] if self.accept("write") else None
                self.take(";")
                t.members[n] = Node("property", type=of, read=read, write=write)
            else:
                for f in self.fields():
                    t.fields.append(f)
                    t.members[f.name] = f
        return t

    def forward_class(self, name):
        t = self.new_type(Type("class", name=name, spelled=self.spelled, ancestor=None, faces=[], fields=[], methods=[], members={}, id=len(self.program.classes)))
        self.program.classes.append(t)
        if name:
            self.names[0][name] = t
        return t

    def interface_type(self, name):
        self.take("interface")
        ancestor = self.find("iunknown") if name not in ("iunknown",) else None
        if self.accept("("):
            ancestor = self.find(self.name())
            self.take(")")
        t = self.new_type(Type("interface", name=name, ancestor=ancestor, methods=[], members=dict(ancestor.members) if ancestor else {}, id=len(self.program.interfaces)))
        self.program.interfaces.append(t)
        self.names[0][name] = t
        if self.is_(";"):
            return t
        while not self.accept("end"):
            r = self.heading(t)
            t.methods.append(r)
            t.members[r.name] = r
        return t

    def heading(self, owner=None):
        kind = self.next()[1].lower()
        name = self.name()
        if owner is None and self.accept("."):
            of = self.find(name)
            name = self.name()
            r = next(m for m in of.methods if m.name == name)
            self.skip_heading()
            return r
        parameters = []
        if self.accept("("):
            while not self.accept(")"):
                mode = self.next()[1].lower() if self.is_("var", "const", "out") else "value"
                names = [self.name()]
                while self.accept(","):
                    names.append(self.name())
                self.take(":")
                if self.accept("array"):
                    self.take("of")
                    t = self.open(self.type())
                else:
                    t = self.type()
                parameters += [Variable(n, t, "parameter", mode) for n in names]
                self.accept(";")
        result = self.type() if self.accept(":") else None
        r = Routine(name, kind, parameters, result, owner)
        self.take(";")
        while self.is_("virtual", "override", "abstract", "reintroduce"):
            word = self.next()[1].lower()
            if word in ("virtual", "override"):
                r.binding = word
            if word == "abstract":
                r.abstract = True
            self.take(";")
        r.number = len(self.program.routines)
        self.program.routines.append(r)
        return r

    def skip_heading(self):
        if self.accept("("):
            while not self.accept(")"):
                self.next()
        if self.accept(":"):
            self.type()
        self.take(";")

    # ---- programs

    BUILT_IN = """type TObject = class constructor create; destructor destroy; virtual; end; iunknown = interface end;
      TInterfacedObject = class(tobject, iunknown) end;"""
    EXCEPTIONS = """type Exception = class(tobject) fmessage: string; constructor create(const amessage: string); property message: string read fmessage write fmessage; end;
      EConvertError = class(exception) end; EInvalidCast = class(exception) end; EIntError = class(exception) end; EDivByZero = class(einterror) end;
      ERangeError = class(einterror) end; EIntOverflow = class(einterror) end;
      function inttostr(value: integer): string;
      constructor exception.create(const amessage: string); begin fmessage := amessage; end;
      function inttostr(value: integer): string; begin str(value, result); end;"""
    SYSTEM = {
        "pos": """function pos(const sub, s: string): integer; var i, j: integer; begin result := 0; if length(sub) = 0 then exit;
          for i := 1 to length(s) - length(sub) + 1 do begin j := 1; while (j <= length(sub)) and (s[i + j - 1] = sub[j]) do j := j + 1;
          if j > length(sub) then begin result := i; exit; end; end; end;""",
        "delete": """procedure delete(var s: string; index, count: integer); begin if (index < 1) or (index > length(s)) or (count < 1) then exit;
          if count > length(s) - index + 1 then count := length(s) - index + 1; s := copy(s, 1, index - 1) + copy(s, index + count, length(s)); end;""",
        "insert": """procedure insert(const source: string; var s: string; index: integer); begin if index < 1 then index := 1;
          if index > length(s) + 1 then index := length(s) + 1; s := copy(s, 1, index - 1) + source + copy(s, index, length(s)); end;""",
        "stringofchar": """function stringofchar(c: char; l: integer): string; var i: integer; begin if l < 0 then l := 0; setlength(result, l);
          for i := 1 to l do result[i] := c; end;""",
        "strtoint": """function StrToInt(const S: String): Integer;
var Code: Integer;
begin
  Val(S, Result, Code);
  if Code <> 0 then
    raise EConvertError.Create('"' + S + '" is an invalid integer');
end;""",
        "strtointdef": """function StrToIntDef(const S: String; ADefault: Integer): Integer;
var Code: Integer;
begin
  Val(S, Result, Code);
  if Code <> 0 then Result := ADefault;
end;""",
        "trystrtoint": """function TryStrToInt(const S: String; out Value: Integer): Boolean;
var Code: Integer;
begin
  Val(S, Value, Code);
  Result := Code = 0;
end;""",
        "uppercase": """function UpperCase(const S: String): String;
var I: Integer;
begin
  Result := S;
  for I := 1 to Length(S) do
    if (S[I] >= 'a') and (S[I] <= 'z') then Result[I] := Chr(Ord(S[I]) - 32);
end;""",
        "lowercase": """function LowerCase(const S: String): String;
var I: Integer;
begin
  Result := S;
  for I := 1 to Length(S) do
    if (S[I] >= 'A') and (S[I] <= 'Z') then Result[I] := Chr(Ord(S[I]) + 32);
end;""",
        "trim": """function Trim(const S: String): String;
var I, J: Integer;
begin
  I := 1; J := Length(S);
  while (I <= J) and (S[I] <= ' ') do I := I + 1;
  while (J >= I) and (S[J] <= ' ') do J := J - 1;
  Result := Copy(S, I, J - I + 1);
end;""",
    }

    def read(self):
        words = {t[1].lower() for t in self.tokens}
        front = ""
        if words & {"class", "interface", "tobject", "iunknown", "tinterfacedobject", "sysutils"}:
            front += self.BUILT_IN
        if "sysutils" in words:
            front += self.EXCEPTIONS
            self.program.exceptions = True
        for n, text in self.SYSTEM.items():
            if n in words and ("sysutils" in words or n in ("pos", "delete", "insert", "stringofchar")):
                front += text
        if front:
            inner = Reader(front)
            mine = self.tokens
            self.tokens = inner.tokens[:-1] + mine[:0]
            self.tokens.append(("end", "", False, False))
            self.declarations()
            for t in self.program.classes[:2]:
                pass
            self.tokens, self.at = mine, 0
        for r in self.program.routines:
            if r.owner is not None and r.owner.kind == "class" and r.owner.name == "tobject":
                r.body = []
        if self.accept("program"):
            while not self.accept(";"):
                self.next()
        if self.accept("uses"):
            while not self.accept(";"):
                self.next()
        self.declarations()
        self.take("begin")
        self.program.main = self.statements("end")
        return self.program

    def declarations(self):
        while True:
            if self.accept("type"):
                while self.tokens[self.at][0] == "id" and self.peek(1) == "=":
                    self.spelled = self.tokens[self.at][1]
                    n = self.name()
                    self.take("=")
                    t = self.type(n)
                    self.names[0].setdefault(n, t) if False else self.names[-1].__setitem__(n, t)
                    self.take(";")
            elif self.accept("const"):
                while self.tokens[self.at][0] == "id" and self.peek(1) == "=":
                    n = self.name()
                    self.take("=")
                    self.declare(n, self.expression())
                    self.take(";")
            elif self.accept("var"):
                while self.tokens[self.at][0] == "id" and self.peek(1) in (":", ","):
                    names = [self.name()]
                    while self.accept(","):
                        names.append(self.name())
                    self.take(":")
                    t = self.type()
                    first = self.expression() if self.accept("=") else None
                    self.take(";")
                    for n in names:
                        v = Variable(n, t, "local" if self.routine else "global", first=first)
                        self.declare(n, v)
                        (self.routine.locals if self.routine else self.program.globals).append(v)
            elif self.is_("procedure", "function", "constructor", "destructor"):
                self.routine_declaration()
            else:
                return

    def routine_declaration(self):
        before = len(self.program.routines)
        start = self.at
        r = self.heading()
        if r.owner is None:
            old = self.find(r.name)
            if isinstance(old, Routine) and old.body is None and len(self.program.routines) > before:
                self.program.routines.pop()
                r = old
            else:
                self.declare(r.name, r)
            if self.accept("forward"):
                self.take(";")
                return
            if not self.is_("var", "const", "type", "begin"):
                return
        self.names.append({})
        if r.owner is not None:
            for n, m in r.owner.members.items():
                self.declare(n, ("member", m))
            self.declare("self", r.object)
        for v in r.parameters:
            self.declare(v.name, v)
        if r.result:
            self.declare("result", r.result)
        outer, self.routine = self.routine, r
        self.declarations()
        self.take("begin")
        r.body = self.statements("end")
        self.take(";")
        self.routine = outer
        self.names.pop()

    # ---- statements

    def statements(self, *ends):
        out = []
        while not self.is_(*ends):
            s = self.statement()
            if s is not None:
                out.append(s)
            if not self.accept(";"):
                break
        if len(ends) == 1:
            self.take(ends[0])
        return out

    def one(self):
        s = self.statement()
        return s if s is not None else Stmt("empty")

    def statement(self):
        if self.accept("begin"):
            return Stmt("block", body=self.statements("end"))
        if self.accept("if"):
            e = self.expression()
            self.take("then")
            a = self.one()
            if self.accept("else"):
                return Stmt("if", condition=e, then=a, otherwise=self.one())
            return Stmt("if", condition=e, then=a, otherwise=None)
        if self.accept("while"):
            e = self.expression()
            self.take("do")
            return Stmt("while", condition=e, body=self.one())
        if self.accept("repeat"):
            body = self.statements("until")
            return Stmt("repeat", body=body, condition=self.expression())
        if self.accept("for"):
            v = self.find(self.name())
            if self.accept("in"):
                switch = self.tokens[self.at - 1][3]
                e = self.expression()
                self.take("do")
                element = {"string": CHAR, "array": None, "dynamic": None, "open": None, "set": None}[e.type.kind]
                element = element or (e.type.base if e.type.kind == "set" else e.type.element)
                return Stmt("forin", variable=v, collection=e, element=element, store=self.stored(element, v.type, switch), body=self.one())
            self.take(":=")
            first = self.expression()
            down = self.next()[1].lower() == "downto"
            last = self.expression()
            self.take("do")
            return Stmt("for", variable=v, first=first, last=last, down=down, body=self.one())
        if self.accept("case"):
            e = self.expression()
            self.take("of")
            branches, otherwise = [], []
            while not self.is_("end", "else"):
                labels = []
                while True:
                    a = self.constant_number()
                    b = self.constant_number() if self.accept("..") else a
                    labels.append((a, b))
                    if not self.accept(","):
                        break
                self.take(":")
                branches.append((labels, self.one()))
                self.accept(";")
            if self.accept("else"):
                otherwise = self.statements("end")
            else:
                self.take("end")
            return Stmt("case", selector=e, branches=branches, otherwise=otherwise)
        if self.accept("try"):
            body = self.statements("finally", "except")
            if self.accept("finally"):
                return Stmt("finally", body=body, finalization=self.statements("end"))
            self.take("except")
            handlers, otherwise = [], None
            if not self.is_("on"):
                return Stmt("except", body=body, handlers=[], otherwise=self.statements("end"))
            while self.accept("on"):
                n = self.name()
                v = None
                if self.accept(":"):
                    c = self.find(self.name())
                    v = Variable(n, c, "handler")
                    (self.routine.locals if self.routine else self.program.globals).append(v)
                    self.names.append({n: v})
                else:
                    c = self.find(n)
                    self.names.append({})
                self.take("do")
                handlers.append((c, v, self.one()))
                self.names.pop()
                self.accept(";")
            if self.accept("else"):
                otherwise = self.statements("end")
            else:
                self.take("end")
            return Stmt("except", body=body, handlers=handlers, otherwise=otherwise)
        if self.accept("raise"):
            if self.is_(";", "end"):
                return Stmt("reraise")
            return Stmt("raise", exception=self.expression())
        if self.is_(";", "end", "until", "else", "finally", "except"):
            return None
        return self.simple_statement()

    def arguments_raw(self):
        out = []
        if self.accept("("):
            while not self.accept(")"):
                e = self.expression()
                w = self.expression() if self.accept(":") else None
                out.append((e, w))
                self.accept(",")
        return out

    def simple_statement(self):
        q, r = self.tokens[self.at][2:]
        n = self.peek()
        if self.find(n) is None and self.tokens[self.at][0] == "id" and n != "inherited":
            if n in ("write", "writeln"):
                self.next()
                return Stmt("write", items=self.arguments_raw(), ends=n == "writeln")
            if n in ("read", "readln"):
                self.next()
                return Stmt("read", targets=[(e, self.stored(host(e.type) if host(e.type).kind != "integer" else INTEGER, e.type, r)) for e, _ in self.arguments_raw()], ends=n == "readln")
            if n in ("inc", "dec"):
                self.next()
                a = self.arguments_raw()
                amount = a[1][0] if len(a) > 1 else Expr("ordinal", type=INTEGER, value=1)
                return Stmt("count", down=n == "dec", place=a[0][0], amount=amount, checked=q and a[0][0].type is INTEGER, store=self.counted(a[0][0].type, r))
            if n == "setlength":
                self.next()
                a = self.arguments_raw()
                return Stmt("setlength", place=a[0][0], length=a[1][0])
            if n in ("include", "exclude"):
                self.next()
                a = self.arguments_raw()
                return Stmt(n, place=a[0][0], element=self.converted(a[1][0], a[0][0].type.base, r))
            if n == "val":
                self.next()
                a = self.arguments_raw()
                return Stmt("val", text=self.converted(a[0][0], STRING), value=(a[1][0], self.stored(INTEGER, a[1][0].type, r)), code=(a[2][0], self.stored(INTEGER, a[2][0].type, r)))
            if n == "str":
                self.next()
                a = self.arguments_raw()
                return Stmt("str", value=a[0], place=a[1][0])
            if n == "freeandnil":
                self.next()
                return Stmt("free", object=self.arguments_raw()[0][0], empties=True)
            if n == "halt":
                self.next()
                a = self.arguments_raw()
                return Stmt("halt", status=a[0][0] if a else Expr("ordinal", type=INTEGER, value=0))
            if n == "exit":
                self.next()
                a = self.arguments_raw()
                return Stmt("exit", value=self.converted(a[0][0], self.routine.result.type, r) if a else None)
            if n in ("break", "continue"):
                self.next()
                return Stmt(n)
        e = self.designator()
        if self.is_(":="):
            r = self.next()[3]
            value = self.expression()
            if e.kind == "property":
                if isinstance(e.write, Routine):
                    return Stmt("setter", object=e.object, routine=e.write, dispatch=self.dispatch(e.write), value=self.converted(value, e.write.parameters[0].type, r))
                e = Expr("field", object=e.object, field=e.write, type=e.write.type)
            return Stmt("assign", place=e, value=self.converted(value, e.type, r))
        if e.kind == "free":
            return Stmt("free", object=e.object, empties=False)
        if e.kind == "method" and e.routine.kind == "destructor" and not e.inherited:
            return Stmt("destroy", object=e.object)
        if e.kind == "nothing":
            return Stmt("empty")
        return Stmt("call", call=e)

    # ---- conversions: keep, low_bits, check, to_string, to_interface, instance

    def conversion(self, source, to):
        """Of a value that goes to a variable of the type, with R off."""
        return self.stored(source, to, False)

    def stored(self, source, to, r):
        if source is to:
            return "keep"
        if to.kind == "string" and source.kind == "char":
            return "to_string"
        if to.kind == "interface" and source.kind == "class":
            return "to_interface"
        if is_ordinal(to) and to.kind == "integer":
            if source.low >= to.low and source.high <= to.high:
                return "keep"
            return "check" if r else "low_bits"
        if is_ordinal(to) and not (source.low >= to.low and source.high <= to.high):
            return "check"
        return "keep"

    def counted(self, to, r):
        if to is INTEGER:
            return "keep"
        return ("check" if r else "low_bits") if to.kind == "integer" else "check"

    def converted(self, e, to, r=False):
        if e.type is to:
            return e
        if e.kind == "list" and to.kind == "set":
            e.type = to
            return e
        if e.type.kind == "set" or to.kind in ("record", "array", "open", "dynamic") and e.type.kind != "nil":
            return e
        if e.type.kind == "emptyset":
            e.type = to
            return e
        if e.kind == "text" and to.kind == "char":
            return Expr("ordinal", type=CHAR, value=e.value[0])
        if e.kind == "ordinal" and e.type is CHAR and to is STRING:
            return Expr("text", type=STRING, value=bytes([e.value]))
        return Expr("convert", type=to, value=e, conversion=self.stored(e.type, to, r), cast=False)

    # ---- expressions

    COMPARISONS = ("=", "<>", "<", ">", "<=", ">=", "in", "is")

    def expression(self):
        left = self.simple()
        while self.is_(*self.COMPARISONS):
            _, op, q, _ = self.next()
            op = op.lower()
            if op == "is":
                left = Expr("is", type=BOOLEAN, value=left, of=self.find(self.name()))
            else:
                left = self.two(op, left, self.simple(), q)
        return left

    def simple(self):
        left = self.term()
        while self.is_("+", "-", "or", "xor"):
            _, op, q, _ = self.next()
            left = self.two(op.lower(), left, self.term(), q)
        return left

    def term(self):
        left = self.factor()
        while self.is_("*", "div", "mod", "and", "shl", "shr", "as"):
            _, op, q, _ = self.next()
            op = op.lower()
            if op == "as":
                left = Expr("convert", type=self.find(self.name()), value=left, conversion="instance", cast=True)
            else:
                left = self.two(op, left, self.factor(), q)
        return left

    def two(self, op, a, b, q):
        if op == "in":
            if a.type.kind == "integer":
                a = self.converted(a, INTEGER)
            return Expr("binary", type=BOOLEAN, op=op, left=a, right=b, checked=q)
        if STRING in (a.type, b.type) or op == "+" and CHAR in (a.type, b.type):
            if a.kind == "ordinal" and b.kind == "ordinal" or a.kind == "text" and b.kind == "text" or {a.kind, b.kind} == {"ordinal", "text"}:
                x, y = self.converted(a, STRING), self.converted(b, STRING)
                if op == "+":
                    return Expr("text", type=STRING, value=x.value + y.value)
            a, b = self.converted(a, STRING), self.converted(b, STRING)
        elif host(a.type).kind == "integer":
            a, b = self.converted(a, INTEGER), self.converted(b, INTEGER)
            if a.kind == "ordinal" and b.kind == "ordinal" and op in "+-*":
                n = {"+": a.value + b.value, "-": a.value - b.value, "*": a.value * b.value}[op]
                return Expr("ordinal", type=INTEGER, value=n)
        elif a.type.kind == "nil":
            a = self.converted(a, b.type)
        elif b.type.kind == "nil":
            b = self.converted(b, a.type)
        elif is_ordinal(a.type) and a.type is not b.type:
            a, b = self.converted(a, host(a.type)), self.converted(b, host(b.type))
        elif a.kind == "list" and b.kind != "list" or a.type.kind == "emptyset":
            a.type = b.type
        elif b.kind == "list" and a.kind != "list" or b.type.kind == "emptyset":
            b.type = a.type
        t = BOOLEAN if op in self.COMPARISONS else a.type
        return Expr("binary", type=t, op=op, left=a, right=b, checked=q)

    def factor(self):
        if self.is_("-", "+", "not"):
            _, op, q, _ = self.next()
            e = self.factor()
            if e.kind == "ordinal" and op == "-":
                return Expr("ordinal", type=INTEGER, value=-e.value)
            if host(e.type).kind == "integer":
                e = self.converted(e, INTEGER)
            return Expr("prefix", type=e.type, op=op.lower(), value=e, checked=q)
        return self.primary()

    def primary(self):
        group, text, q, r = self.tokens[self.at]
        if group == "num":
            self.next()
            return Expr("ordinal", type=INTEGER, value=int(text[1:], 16) if text[0] == "$" else int(text))
        if group == "str":
            self.next()
            value = b""
            for m in re.finditer(r"'((?:[^'\n]|'')*)'|#(\d+)", text):
                value += m.group(1).replace("''", "'").encode() if m.group(2) is None else bytes([int(m.group(2))])
            e = Expr("ordinal", type=CHAR, value=value[0]) if len(value) == 1 else Expr("text", type=STRING, value=value)
            return self.selected(e) if self.is_("[") else e
        if self.accept("nil"):
            return Expr("nil", type=NIL)
        if self.accept("["):
            elements = []
            while not self.accept("]"):
                a = self.expression()
                elements.append((a, self.expression()) if self.accept("..") else (a, None))
                self.accept(",")
            base = elements[0][0].type if elements else None
            return Expr("list", type=EMPTY_SET if base is None else self.set_of(base), elements=elements)
        return self.designator()

    def set_of(self, base):
        base = host(base)
        for t in self.program.types:
            if t.kind == "set" and host(t.base) is base:
                return t
        if base.kind == "enumeration":
            return self.new_type(Type("set", base=base))
        return Type("set", base=base, number=12 if base is INTEGER else 14 if base is CHAR else 15)

    FUNCTIONS = ("length", "low", "high", "ord", "chr", "succ", "pred", "abs", "sqr", "odd", "upcase", "assigned")

    def designator(self):
        inherited = self.accept("inherited")
        if inherited and (self.tokens[self.at][0] != "id" or self.is_("end", "else", "until", "finally", "except")):
            return self.bare_inherited()
        if self.accept("("):
            e = self.expression()
            self.take(")")
            return self.selected(Expr("bracket", type=e.type, value=e))
        q = self.tokens[self.at][2]
        n = self.name()
        if inherited:
            m = self.routine.owner.ancestor.members.get(n)
            return self.selected(self.method_call(Expr("variable", type=self.routine.owner, variable=self.routine.object), m, True))
        thing = self.find(n)
        if thing is None:
            if n in ("true", "false"):
                return Expr("ordinal", type=BOOLEAN, value=int(n == "true"))
            if n == "maxint":
                return Expr("ordinal", type=INTEGER, value=2147483647)
            if n == "eof" or n == "eoln":
                return Expr(n, type=BOOLEAN)
            if n in NAMED and self.is_("("):
                self.take("(")
                e = self.expression()
                self.take(")")
                return self.selected(self.cast(e, NAMED[n]))
            if n == "copy":
                a = [e for e, _ in self.arguments_raw()]
                if a[0].type is CHAR:
                    a[0] = self.converted(a[0], STRING)
                if len(a) == 1:
                    return self.selected(Expr("whole", type=a[0].type, value=a[0]))
                return self.selected(Expr("copy", type=a[0].type, value=a[0], first=a[1], count=a[2]))
            if n in self.FUNCTIONS:
                named = NAMED.get(self.peek(1)) or self.find(self.peek(1))
                if n in ("low", "high") and self.peek(2) == ")" and isinstance(named, Node) and named.kind in ("integer", "boolean", "char", "enumeration", "subrange", "array") and not hasattr(named, "type"):
                    self.take("(")
                    self.name()
                    t = named.index if named.kind == "array" else named
                    self.take(")")
                    return Expr("ordinal", type=t, value=t.low if n == "low" else t.high)
                e = self.arguments_raw()[0][0]
                return self.function(n, e, q)
            raise SyntaxError(f"unknown {n}")
        if isinstance(thing, tuple):
            if thing[1] is self.routine and self.is_(":="):
                return Expr("variable", type=self.routine.result.type, variable=self.routine.result)
            return self.selected(self.member(Expr("variable", type=self.routine.owner, variable=self.routine.object), thing[1]))
        if isinstance(thing, Variable):
            return self.selected(Expr("variable", type=thing.type, variable=thing))
        if isinstance(thing, Routine):
            if thing is self.routine and self.is_(":="):
                return Expr("variable", type=thing.result.type, variable=thing.result)
            return self.selected(Expr("call", type=thing.result.type if thing.result else None, routine=thing, arguments=self.arguments(thing)))
        if isinstance(thing, Node) and thing.kind in ("class", "interface", "enumeration", "subrange", "record", "dynamic") and hasattr(thing, "number") and not hasattr(thing, "type"):
            if thing.kind == "class" and self.accept("."):
                m = thing.members[self.name()]
                return self.selected(Expr("construct", type=thing, routine=m, arguments=self.arguments(m)))
            self.take("(")
            e = self.expression()
            self.take(")")
            return self.selected(self.cast(e, thing))
        if thing.kind in ("ordinal", "text"):
            return self.selected(Expr(thing.kind, type=thing.type, value=thing.value)) if self.is_("[") else Expr(thing.kind, type=thing.type, value=thing.value)
        return thing

    def bare_inherited(self):
        m = self.routine.owner.ancestor.members.get(self.routine.name) if self.routine.owner.ancestor else None
        if not isinstance(m, Routine) or [(p.type, p.mode) for p in m.parameters] != [(p.type, p.mode) for p in self.routine.parameters]:
            return Expr("nothing", type=None)
        object = Expr("variable", type=self.routine.owner, variable=self.routine.object)
        arguments = [Node("value", value=Expr("variable", type=v.type, variable=v)) for v in self.routine.parameters]
        return Expr("method", type=m.result.type if m.result else None, object=object, routine=m, dispatch="direct", inherited=True, arguments=arguments)

    def function(self, n, e, q):
        if n == "chr":
            return self.cast(e, CHAR)
        if n == "ord":
            return Expr("convert", type=INTEGER, value=e, conversion="keep", cast=True)
        if n in ("length", "low", "high"):
            t = e.type
            if t.kind == "array" and n != "length":
                return Expr("apply", type=t.index, function=n, value=e, checked=q)
            if e.type is CHAR and e.kind == "ordinal":
                e = self.converted(e, STRING)
            return Expr("apply", type=INTEGER, function=n, value=e, checked=q)
        if n in ("abs", "sqr"):
            return Expr("apply", type=INTEGER, function=n, value=self.converted(e, INTEGER), checked=q)
        if n in ("odd", "assigned"):
            return Expr("apply", type=BOOLEAN, function=n, value=e, checked=q)
        return Expr("apply", type=e.type, function=n, value=e, checked=q)

    def cast(self, e, to):
        if to.kind == "class":
            return Expr("convert", type=to, value=e, conversion="instance", cast=True)
        if to.kind in ("integer", "char"):
            c = "keep" if is_ordinal(e.type) and e.type.low >= to.low and e.type.high <= to.high else "low_bits"
        elif is_ordinal(to):
            c = "keep" if e.type.low >= to.low and e.type.high <= to.high else "check"
        else:
            c = "keep"
        return Expr("convert", type=to, value=e, conversion=c, cast=True)

    def dispatch(self, m):
        return "interface" if m.owner.kind == "interface" else "direct" if m.binding == "static" else "virtual"

    def method_call(self, object, m, inherited=False):
        given = self.arguments(m)
        return Expr("method", type=m.result.type if m.result else None, object=object, routine=m, dispatch="direct" if inherited else self.dispatch(m), inherited=inherited, arguments=given)

    def member(self, e, m):
        if isinstance(m, Field):
            return Expr("field", type=m.type, object=e, field=m)
        if isinstance(m, Routine):
            return self.method_call(e, m)
        if self.is_(":="):
            return Expr("property", type=m.type, object=e, write=m.write)
        return self.member(e, m.read)

    def selected(self, e):
        while True:
            if self.accept("."):
                n = self.name()
                t = e.type
                if t.kind == "record":
                    f = next(f for f in t.fields if f.name == n)
                    e = Expr("field", type=f.type, object=e, field=f)
                elif n == "free" and n not in t.members:
                    return Expr("free", type=None, object=e)
                elif n == "classname" and n not in t.members:
                    e = Expr("apply", type=STRING, function="classname", value=e, checked=False)
                else:
                    e = self.member(e, t.members[n])
            elif self.is_("["):
                self.take("[")
                while True:
                    i = self.expression()
                    t = e.type
                    if t.kind == "array":
                        e = Expr("index", type=t.element, value=e, index=self.converted(i, host(t.index)))
                    elif t.kind == "string":
                        e = Expr("index", type=CHAR, value=e, index=self.converted(i, INTEGER))
                    else:
                        e = Expr("index", type=t.element, value=e, index=self.converted(i, INTEGER))
                    if not self.accept(","):
                        break
                self.take("]")
            else:
                return e

    def arguments(self, r):
        out = []
        if not r.parameters:
            if self.is_("(") and self.peek(1) == ")":
                self.next()
                self.next()
            return out
        self.take("(")
        for k, p in enumerate(r.parameters):
            if k:
                self.take(",")
            switch = self.tokens[self.at][3]
            if p.type.kind == "open":
                if self.is_("["):
                    self.take("[")
                    values = []
                    while not self.accept("]"):
                        values.append(self.converted(self.expression(), p.type.element, switch))
                        self.accept(",")
                    out.append(Node("listed", of=p.type, values=values))
                else:
                    out.append(Node("array", value=self.expression()))
            elif p.mode in ("var", "out"):
                out.append(Node("place", value=self.expression()))
            else:
                out.append(Node("value", value=self.converted(self.expression(), p.type, switch)))
        self.take(")")
        return out


def read(text):
    return Reader(text).read()
