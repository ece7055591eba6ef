"""Writes the trees of `pascal.py` down as typed programs of op_core, in the words of `crates/op_semantics/proofs/Programs.antt`."""
import re

OPERATORS = {"=": "Equal", "<>": "NotEqual", "<": "Less", ">": "Greater", "<=": "LessEqual", ">=": "GreaterEqual", "in": "In_", "+": "Add", "-": "Subtract", "or": "Or", "xor": "Xor", "*": "Multiply", "div": "Div", "mod": "Mod_", "and": "And", "shl": "Shl", "shr": "Shr"}
PREFIXES = {"not": "Not", "+": "Plus", "-": "Minus"}
CONVERSIONS = {"keep": "Keep", "low_bits": "LowBits", "check": "Check", "to_string": "ToString", "to_interface": "ToInterface", "instance": "Instance"}
FUNCTIONS = {"length": "Length", "low": "Low", "high": "High", "succ": "Succ", "pred": "Pred", "abs": "Abs", "sqr": "Sqr", "odd": "Odd", "upcase": "UpCase", "assigned": "Assigned", "classname": "ClassName"}
DISPATCHES = {"direct": "Direct", "virtual": "Virtual", "interface": "ByInterface"}
KINDS = {"procedure": "Procedure", "function": "FunctionKind", "constructor": "Constructor", "destructor": "Destructor"}
MODES = {"value": "Value", "const": "Const_", "var": "Var", "out": "Out"}
BINDINGS = {"static": "Static", "virtual": "VirtualBinding", "override": "Override"}


def number(n):
    return f"(pos {n})" if n >= 0 else f"(negsuc {-n - 1})"


def truth(b):
    return "true" if b else "false"


def listed(xs, empty="[]"):
    return "(" + " ∷ ".join(list(xs) + [empty]) + ")" if xs else empty


def codes(data):
    """Bytes as a list."""
    parts = []
    for line in data.split(b"\n"):
        parts.append(line)
    out = []
    for k, line in enumerate(parts):
        last = k == len(parts) - 1
        if not line:
            if not last:
                out.append("(10 ∷ [])")
            continue
        plain = all(32 <= b < 127 and b not in b'"\\' for b in line)
        text = f'codes "{line.decode("latin-1")}"' if plain else "(" + " ∷ ".join(str(b) for b in line) + " ∷ [])"
        out.append(text if last else f"said ({text})" if plain else f"said {text}")
    return " ++ ".join(out) if out else "[]"


class Writer:
    def __init__(self, program):
        self.program = program
        self.fields, self.methods, self.listed, self.rows = [], [], [], []
        self.runs = {}
        for t in program.types:
            if t.kind in ("record", "class"):
                self.runs[t] = len(self.fields)
                for f in t.fields:
                    f.number = len(self.fields)
                    self.fields.append(f"part name {f.type.number}")
        self.method_runs, self.list_runs = {}, {}
        for t in program.classes + program.interfaces:
            self.method_runs[t] = len(self.methods)
            for m in t.methods:
                self.methods.append(f"method_row {m.number} {BINDINGS[m.binding]} {truth(m.abstract)}")
        for t in program.classes:
            self.list_runs[t] = len(self.listed)
            self.listed += [f"interface_id {i.id}" for i in t.faces]
        self.variables()

    # ---- tables

    def variables(self):
        self.global_ids = []
        handlers = []
        for v in self.program.globals:
            if v.role == "handler":
                handlers.append(v)
            else:
                self.row(v)
                self.global_ids.append(f"variable_id {v.number}")
        self.routine_rows = []
        for r in self.program.routines:
            first = len(self.rows)
            for v in r.variables:
                self.row(v)
            owner = "OfUnit" if r.owner is None else f"(OfClass (class_id {r.owner.id}))" if r.owner.kind == "class" else f"(OfInterface (interface_id {r.owner.id}))"
            result = f"(Some {r.result.type.number})" if r.result else "None"
            self.routine_rows.append(f'routine_row name (codes "{r.name}") {KINDS[r.kind]} {owner} {len(r.parameters)} {result} {first} {len(self.rows) - first}')
        for v in handlers:
            self.row(v)

    def row(self, v):
        v.number = len(self.rows)
        role = {"global": "Plain", "local": "Plain", "result": "Result", "object": "ObjectRole", "handler": "Handler"}.get(v.role) or f"(Parameter {MODES[v.mode]})"
        first = f"(Some (first_constant {self.constant(v.first)}))" if v.first is not None else "None"
        self.rows.append(f"row name {v.type.number} {role} {first}")

    def types(self):
        out = []
        for t in self.program.types:
            k = t.kind
            if k == "enumeration":
                out.append(f"Enumeration {t.count}")
            elif k == "subrange":
                out.append(f"Subrange (id {t.base.number}) {number(t.low)} {number(t.high)}")
            elif k == "set":
                out.append(f"Set (id {t.base.number})")
            elif k == "record":
                out.append(f"Record (rows_at {self.runs[t]} {len(t.fields)})")
            elif k == "array":
                out.append(f"Array (id {t.index.number}) (id {t.element.number})")
            elif k == "dynamic":
                out.append(f"DynamicArray (id {t.element.number})")
            elif k == "open":
                out.append(f"OpenArray (id {t.element.number})")
            elif k == "class":
                out.append(f"Class (class_id {t.id})")
            elif k == "interface":
                out.append(f"Interface (interface_id {t.id})")
        return out

    def classes(self):
        out = []
        for t in self.program.classes:
            above = f"(Some (class_id {t.ancestor.id}))" if t.ancestor else "None"
            out.append(f'class_row (codes "{t.spelled}") {t.number} {above} {self.runs[t]} {len(t.fields)} {self.method_runs[t]} {len(t.methods)} {self.list_runs[t]} {len(t.faces)}')
        return out

    def interfaces(self):
        out = []
        for t in self.program.interfaces:
            above = f"(Some (interface_id {t.ancestor.id}))" if t.ancestor else "None"
            out.append(f'interface_row (codes "{t.name}") {t.number} {above} {self.method_runs[t]} {len(t.methods)}')
        return out

    def exceptions(self):
        if not self.program.exceptions:
            return "None"
        c = {t.name: t for t in self.program.classes}
        message = c["exception"].fields[0].number
        parts = [("exception", "exception"), ("zero_divisor", "edivbyzero"), ("range", "erangeerror"), ("overflow", "eintoverflow"), ("cast", "einvalidcast")]
        rest = "; ".join(f"{k} = class_id {c[n].id}" for k, n in parts)
        return f"(Some (record {{ message = record {{ 0 = {message} }}; {rest} }}))"

    # ---- expressions

    def constant(self, e):
        if e.kind == "ordinal":
            return f"(Ordinal {number(e.value)})"
        if e.kind == "text":
            return f"(Text ({codes(e.value)}))"
        return "NilOf"

    def expression(self, e):
        k = e.kind
        t = e.type.number if e.type is not None else 9
        if k == "ordinal":
            return f"(known {number(e.value)} {t})"
        if k == "text":
            return f"(quoted ({codes(e.value)}))"
        if k == "nil":
            return "nothing"
        if k == "variable":
            v = e.variable
            return f"({'obj' if v.role == 'object' else 'var'} {v.number} {t})"
        if k == "bracket":
            return f"(then {self.expression(e.value)} bracket (id {t}))"
        if k == "field":
            return f"(dot {self.expression(e.object)} {e.field.number} {t})"
        if k == "index":
            return f"(at {self.expression(e.value)} {self.expression(e.index)} {t})"
        if k == "convert":
            return f"(to {CONVERSIONS[e.conversion]} {t} {self.expression(e.value)})"
        if k == "binary":
            return f"(with_q {truth(e.checked)} {t} {self.expression(e.left)} {OPERATORS[e.op]} {self.expression(e.right)})"
        if k == "prefix":
            return f"(signed {truth(e.checked)} {t} {PREFIXES[e.op]} {self.expression(e.value)})"
        if k == "apply":
            return f"(applying {FUNCTIONS[e.function]} {truth(e.checked)} {self.expression(e.value)} {t})"
        if k == "whole":
            return f"(applying Whole false {self.expression(e.value)} {t})"
        if k == "copy":
            return f"(then {self.expression(e.value)} (copy {self.expression(e.first)} {self.expression(e.count)}) (id {t}))"
        if k == "is":
            return f"(then {self.expression(e.value)} (is (id {e.of.number})) (id 5))"
        if k in ("eof", "eoln"):
            return f"(expression {k} (id 5) no_steps)"
        if k == "list":
            return f"(set_of_all {listed([self.member(x) for x in e.elements])} {t})"
        if k == "call":
            return f"(expression (call_of (routine_id {e.routine.number}) {self.arguments(e.arguments)}) (id {t}) no_steps)"
        if k == "construct":
            return f"(expression (construct (class_id {e.type.id}) (routine_id {e.routine.number}) {self.arguments(e.arguments)}) (id {t}) no_steps)"
        if k == "method":
            return f"(then {self.expression(e.object)} (method (routine_id {e.routine.number}) {DISPATCHES[e.dispatch]} {self.arguments(e.arguments)}) (id {t}))"
        raise ValueError(k)

    def member(self, x):
        return f"range {self.expression(x[0])} {self.expression(x[1])}" if x[1] else f"one {self.expression(x[0])}"

    def arguments(self, given):
        return f"(argued {listed([self.argument(a) for a in given])})"

    def argument(self, a):
        if a.kind == "listed":
            values = "no_expressions"
            for e in reversed(a.values):
                values = f"(expressions {self.expression(e)} {values})"
            return f"listed_as (id {a.of.number}) {values}"
        return f"{'whole_array' if a.kind == 'array' else a.kind} {self.expression(a.value)}"

    # ---- statements

    def output(self, item):
        e, w = item
        return f"padded {self.expression(e)} {self.expression(w)}" if w is not None else f"plain {self.expression(e)}"

    def target(self, t):
        return f"(target_at {self.expression(t[0])} {CONVERSIONS[t[1]]})"

    def one(self, s, depth):
        return f"({self.statement(s, depth)})"

    def all(self, ss, depth):
        pad = "\n" + "  " * depth
        return "(listed (" + "".join(pad + self.one(s, depth + 1) + " ∷" for s in ss) + " []))"

    def statement(self, s, d):
        k, e = s.kind, self.expression
        if k == "empty":
            return "empty"
        if k == "block":
            return f"block {self.all(s.body, d)}"
        if k == "if":
            if s.otherwise is None:
                return f"if_then {e(s.condition)} {self.one(s.then, d)}"
            return f"if_else {e(s.condition)} {self.one(s.then, d)} {self.one(s.otherwise, d)}"
        if k == "while":
            return f"while_do {e(s.condition)} {self.one(s.body, d)}"
        if k == "repeat":
            return f"repeat_until {self.all(s.body, d)} {e(s.condition)}"
        if k == "for":
            return f"for_to (variable_id {s.variable.number}) {e(s.first)} {'Downto' if s.down else 'To'} {e(s.last)} {self.one(s.body, d)}"
        if k == "forin":
            return f"for_in (variable_id {s.variable.number}) {CONVERSIONS[s.store]} {e(s.collection)} {self.one(s.body, d)}"
        if k == "case":
            branches = "no_branches"
            for labels, body in reversed(s.branches):
                branches = f"(branches {listed([f'label {number(a)} {number(b)}' for a, b in labels])} {self.one(body, d)} {branches})"
            return f"case_of {e(s.selector)} {branches} {self.all(s.otherwise, d)}"
        if k == "finally":
            return f"try_finally {self.all(s.body, d)} {self.all(s.finalization, d)}"
        if k == "except":
            handlers = "no_handlers"
            for c, v, body in reversed(s.handlers):
                handlers = f"(handlers {f'(Some (variable_id {v.number}))' if v else 'None'} (class_id {c.id}) {self.one(body, d)} {handlers})"
            if s.otherwise is None:
                return f"try_on {self.all(s.body, d)} {handlers}"
            return f"try_on_else {self.all(s.body, d)} {handlers} {self.all(s.otherwise, d)}"
        if k == "raise":
            return f"raise {e(s.exception)}"
        if k in ("reraise", "break", "continue"):
            return k
        if k == "exit":
            return "exit" if s.value is None else f"exit_with {e(s.value)}"
        if k == "call":
            return f"call {e(s.call)}"
        if k == "assign":
            return f"assign {e(s.place)} {e(s.value)}"
        if k == "setter":
            place = f"(then {e(s.object)} (method (routine_id {s.routine.number}) {DISPATCHES[s.dispatch]} no_arguments) (id {s.routine.parameters[0].type.number}))"
            return f"assign {place} {e(s.value)}"
        if k == "halt":
            return f"halt {e(s.status)}"
        return f"built_in ({self.built_in(s)})"

    def built_in(self, s):
        k, e = s.kind, self.expression
        if k == "write":
            return f"write {listed([self.output(x) for x in s.items])} {truth(s.ends)}"
        if k == "read":
            return f"read {listed([self.target(t) for t in s.targets])} {truth(s.ends)}"
        if k == "count":
            return f"count {'Downto' if s.down else 'To'} {self.target((s.place, s.store))} {e(s.amount)} {truth(s.checked)}"
        if k == "setlength":
            return f"set_length {e(s.place)} {e(s.length)}"
        if k in ("include", "exclude"):
            return f"{k} {e(s.place)} {e(s.element)}"
        if k == "val":
            return f"val {e(s.text)} {self.target(s.value)} {self.target(s.code)}"
        if k == "str":
            return f"str ({self.output(s.value)}) {e(s.place)}"
        if k == "free":
            return f"free {e(s.object)} {truth(s.empties)}"
        return f"destroy {e(s.object)}"

    # ---- the whole

    def write(self):
        bodies = [self.all(r.body or [], 2) for r in self.program.routines] + [self.all(self.program.main, 2)]
        tables = [listed(x) for x in (self.types(), self.fields, self.rows, self.routine_rows, self.classes(), self.interfaces(), self.methods, self.listed, self.global_ids)]
        return "program name\n      " + "\n      ".join(tables) + f"\n      {self.exceptions()}\n      (" + " ∷\n      ".join(bodies + ["[]"]) + ")"


def events(blocks):
    return listed([(f"makes {b[1]}" if b[2] else f"asks {b[1]}") if b[0] == "ask" else f"frees {b[1]}" for b in blocks])


HEAD = """-- {title} Each program stands above what it comes to; tests/semantics makes this file of the
-- texts in tests/semantics.d, and tells how what is expected was found.
use Rattle.std.specs.Prelude.{{◌≡◌, ℕ, pos, negsuc, true, false, List, [], ◌∷◌, ◌++◌, codes, Some, None}}
use Rattle.std.proofs.Common.{{refl}}
use Rattle.op_core.specs.Expression.{{expression, constant, call as call_of, construct, method, no_steps, then, eof, eoln, bracket, is, copy, one, range, value, place, array as whole_array, no_arguments, no_expressions, expressions}}
use Rattle.op_core.specs.Initial.{{constant as first_constant}}
use Rattle.op_core.specs.Statement.{{assign, call, empty, block, if_then, if_else, case_of, no_branches, branches, while_do, repeat_until, for_to, for_in, try_finally, try_on, try_on_else, handlers, no_handlers, raise, reraise, exit, exit_with, break, continue, halt, built_in, write, read, count, set_length, include, exclude, val, str, free, destroy, plain, padded}}
use Rattle.op_core.specs.Types.{{id}}
use Rattle.op_core.specs.declared.class.Binding.TheVariants.{{Static, Virtual as VirtualBinding, Override}}
use Rattle.op_core.specs.declared.constant.Const.TheVariants.{{Ordinal, Text, Nil as NilOf}}
use Rattle.op_core.specs.declared.operation.Conversion.TheVariants.{{Keep, LowBits, Check, ToString, ToInterface, Instance}}
use Rattle.op_core.specs.declared.operation.Dispatch.TheVariants.{{Direct, Virtual, Interface as ByInterface}}
use Rattle.op_core.specs.declared.operation.Function.TheVariants.{{Length, Low, High, Succ, Pred, Abs, Sqr, Odd, Assigned, UpCase, Whole, ClassName}}
use Rattle.op_core.specs.declared.routine.Owner.TheVariants.{{Unit as OfUnit, Class as OfClass, Interface as OfInterface}}
use Rattle.op_core.specs.declared.routine.Role.TheVariants.{{Plain, Parameter, Object as ObjectRole, Result, Handler}}
use Rattle.op_core.specs.declared.types.CoreType.TheVariants.{{Subrange, Enumeration, Set, Record, Array, DynamicArray, OpenArray, Class, Interface}}
use Rattle.op_meaning.proofs.Programs.{{said, var, known, quoted, with_q, signed, applying, to, at, dot, set_of_all, argued, listed, rows_at, part}}
use Rattle.op_semantics.proofs.Programs.{{Outcome, outcome, ends_with, asks, makes, frees, nothing, variable_id, routine_id, class_id, interface_id, obj, target_at, listed_as, label, row, routine_row, class_row, method_row, interface_row, program}}
use Rattle.op_semantics.specs.Frames.{{Program}}
use Rattle.op_tree.specs.declared.heading.ParameterMode.TheVariants.{{Value, Var, Const_, Out}}
use Rattle.op_tree.specs.declared.heading.RoutineKind.TheVariants.{{Procedure, Function as FunctionKind, Constructor, Destructor}}
use Rattle.op_tree.specs.declared.operator.Operator.TheVariants.{{Equal, NotEqual, Less, Greater, LessEqual, GreaterEqual, In_, Add, Subtract, Or, Xor, Multiply, Div, Mod_, And, Shl, Shr}}
use Rattle.op_tree.specs.declared.operator.PrefixOperator.TheVariants.{{Not, Plus, Minus}}
use Rattle.op_tree.specs.declared.position.Name.{{Name}}
use Rattle.op_tree.specs.declared.statement.Direction.TheVariants.{{To, Downto}}

module _ (name : Name) where
"""


def used(line, body):
    """An import with only those of its names that stand in the text."""
    m = re.match(r"(use \S+\.\{)(.*)\}$", line)
    if not m:
        return [line]
    names = [n for n in m.group(2).split(", ") if re.search(rf"(?<![\w.]){re.escape(n.split(' as ')[-1])}(?!\w)(?! =)", body) or "◌" in n and n.strip("◌") in body]
    return [m.group(1) + ", ".join(names) + "}"] if names else []


def whole(title, body):
    """A file of such programs."""
    head = HEAD.format(title=title)
    said = "\n".join(line for line in body.split("\n") if not line.strip().startswith("--")) + " Name"
    said = re.sub(r'codes "[^"]*"', "codes", said)
    return "\n".join(x for line in head.split("\n") for x in used(line, said)) + body.rstrip("\n") + "\n"


def indented(text):
    """The lines of a definition, as rt fmt has them."""
    return re.sub(r"\n *", "\n      ", text).replace("( ", "(")


def entry(name, text, program, given, outcome):
    """One program with the proof of what it comes to."""
    comment = f"  -- {text.strip().splitlines()[0].strip('{ }')}\n"
    return (
        f"{comment}  abbrev {name} : Program\n  {name} = {indented(Writer(program).write())}\n\n"
        f"  {name}_runs : outcome 4000 {name} ({codes(given)}) ≡ ends_with {events(outcome.blocks)} ({codes(outcome.output)}) ({codes(outcome.errors)}) {outcome.status}\n"
        f"  unfolding outcome\n  {name}_runs = refl\n\n"
    )
