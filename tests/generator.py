"""Random programs of the plain class, which end and print what is in their variables.

What the language leaves open, or Free Pascal does otherwise, does not come up: expressions change nothing, so that their order is not seen; indices,
casts and what goes to a subrange without range checks are within bounds; products, shifts and `not` are of Integers; errors come up where overflow or
range checks are on alone, and nowhere within a `try`; what a function does ends no program; a const parameter that is a whole is given what no var
parameter stands for; locals and results are set before they are read, and no counter is read behind its loop."""
import random

NARROW = {"ShortInt": (-128, 127), "Byte": (0, 255), "SmallInt": (-32768, 32767), "Word": (0, 65535)}
NUMBERS = [0, 1, 2, 5, 10, 100, 255, 256, 32767, 65535, 123456, 2**31 - 1]


class Type:
    """A type by its name: its sort, its bounds where it is ordinal, and its parts, an element by an index or fields by their names."""

    def __init__(self, name, sort, low=0, high=0, text=None, index=None, element=None, fields=()):
        self.name, self.sort, self.low, self.high, self.text, self.index, self.element, self.fields = name, sort, low, high, text, index, element, fields
        self.is_whole = sort in ("set", "array", "record")
        self.size = (index.high - index.low + 1) * element.size if sort == "array" else sum(part.size for _, part in fields) or 1


class Scope:
    """What a body may use: its routine, variables that it reads and writes, its own ones among these, values and globals that it reads alone."""

    def __init__(self, routine, variables, own, values, globals_):
        self.routine, self.variables, self.own, self.values, self.globals, self.counters = routine, variables, own, values, globals_, []

    def counter(self, t):
        self.counters.append((f"k{len(self.counters)}", t))
        return self.counters[-1][0]


class Routine:
    """A routine: a calm one ends with no error, and a closed one reads no globals. A function is calm and writes what is its own alone."""

    def __init__(self, name, parameters, result, is_calm, is_closed):
        self.name, self.parameters, self.result, self.is_calm, self.is_closed, self.cost = name, parameters, result, is_calm, is_closed, 1
        self.is_pure = result is not None and not any(mode in ("var", "out") for mode, _, _ in parameters)


class Program:
    def __init__(self, seed):
        self.random = random.Random(seed)
        self.one = self.random.choice
        self.lines, self.margin, self.routines, self.cost, self.weight = [], 0, [], 0, 1
        self.checks_overflow = self.checks_range = self.must_be_calm = False

    def often(self, chance):
        return self.random.random() < chance

    def line(self, text):
        self.lines.append("  " * self.margin + text)

    def inside(self, opening, body, closing=None):
        """Lines between two others."""
        self.line(opening)
        self.margin += 1
        body()
        self.margin -= 1
        self.lines += ["  " * self.margin + closing] if closing else []

    def switch(self, overflow, range_):
        """Sets the switches Q and R from here on."""
        if (overflow, range_) != (self.checks_overflow, self.checks_range):
            self.checks_overflow, self.checks_range = overflow, range_
            self.line("{$Q" + "-+"[overflow] + ",R" + "-+"[range_] + "}")

    def make_types(self):
        """Simple types, and arrays and records, each of parts of the types before it."""
        self.integer = Type("Integer", "integer", -(2**31), 2**31 - 1)
        self.narrow = [Type(name, "integer", *bounds) for name, bounds in NARROW.items()]
        self.boolean, self.char = Type("Boolean", "boolean", 0, 1), Type("Char", "char", 0, 255)
        last = self.random.randint(1, 5)
        self.colour = Type("Colour", "enumeration", 0, last, "(" + ", ".join(f"Colour{k}" for k in range(last + 1)) + ")")
        low, high = self.one([(0, 9), (-10, 10), (1, 100), (-1000, 70000), (5, 5)])
        part, last = Type("Part", "subrange", low, high, f"{low}..{high}"), self.random.randint(98, 104)
        self.letter = Type("Letter", "char", 97, last, f"'a'..'{chr(last)}'")
        self.numbers, self.colours = Type("Numbers", "set", text="set of 0..31", element=part), Type("Colours", "set", text="set of Colour", element=self.colour)
        self.types = [self.colour, part, self.letter, self.numbers, self.colours]
        self.simple = [self.integer, self.boolean, self.char] + self.types + self.narrow
        for k in range(self.random.randint(3, 6)):
            parts = [t for t in self.simple + self.types if t.size <= 30]
            if self.often(0.5):
                fields = [(f"f{n}", self.one(parts)) for n in range(self.random.randint(1, 5))]
                text = "record " + "; ".join(f"{name}: {t.name}" for name, t in fields) + " end"
                self.types.append(Type(f"Record{k}", "record", text=text, fields=fields))
            else:
                low = self.one([0, 1, -3])
                bounds = Type("", "integer", low, low + self.random.randint(0, 6))
                index, element = self.one([bounds, bounds, self.colour, self.letter, self.boolean]), self.one(parts)
                text = f"array [{index.name or f'{index.low}..{index.high}'}] of {element.name}"
                self.types.append(Type(f"Array{k}", "array", text=text, index=index, element=element))

    def first(self, t):
        """A first value of a type."""
        if t.sort == "array":
            return "(" + ", ".join(self.first(t.element) for _ in range(t.index.high - t.index.low + 1)) + ")"
        if t.sort == "record":
            return "(" + "; ".join(f"{name}: {self.first(part)}" for name, part in t.fields) + ")"
        if t.sort == "set":
            return self.one(["[]", "[Colour0]", "[Colour1]"] if t is self.colours else ["[]", "[0, 3..7]", "[31]", "[0..31]"])
        number = self.one([t.low, t.high, self.random.randint(t.low, t.high)])
        return {"boolean": ["False", "True"][number & 1], "char": f"#{number}", "enumeration": f"Colour{number}"}.get(t.sort, str(number))

    def places(self, variables, fits):
        """Ways to what fits: a variable, the fields and the types of indices on the way, and the type."""
        found, open_ = [], [(name, [], t) for name, t in variables]
        while open_:
            name, path, t = open_.pop()
            found += [(name, path, t)] if fits(t) else []
            open_ += [(name, path + [t.index], t.element)] if t.sort == "array" else [(name, path + [field], part) for field, part in t.fields]
        return found

    def spelled(self, place, depth, scope):
        """A place; its indices raise no error, and at no depth they are made of what is no part."""
        depth = min(depth, 0) if self.checks_overflow else depth
        return place[0] + "".join(f".{step}" if isinstance(step, str) else f"[{self.within(step, depth - 1, scope)}]" for step in place[1])

    def read(self, fits, depth, scope):
        """Something that fits, with its type, or None; at a depth below 0 it is no part."""
        variables = scope.variables + scope.values + scope.globals
        found = self.places(variables, fits) if depth >= 0 else [(name, [], t) for name, t in variables if fits(t)]
        place = self.one(found) if found else None
        return place and (self.spelled(place, min(depth, 1), scope), place[2])

    def argument(self, mode, name, t, depth, scope, roots):
        """What goes to a parameter; roots are the variables that var parameters stand for, and of which no whole const parameter is given a part."""
        if mode == "const" and t.is_whole or mode in ("var", "out"):
            own = scope.own if scope.routine and mode == "const" else scope.variables
            found = self.places([v for v in own if v[0] not in roots] + scope.values if mode == "const" else own, lambda other: other is t)
            place = self.one(found) if found else None
            roots.update([place[0]] if place and mode != "const" else [])
            return place and self.spelled(place, 0, scope)
        return str(self.random.randint(0, 4)) if name == "Depth" else self.value(t, depth, scope, t is not self.integer and (self.checks_overflow or self.checks_range))

    def called(self, routine, depth, scope):
        """The call of a routine, or None where a parameter finds no argument."""
        roots, found = set(), {}
        for mode, name, t in sorted(routine.parameters, key=lambda parameter: parameter[0] not in ("var", "out")):
            found[name] = self.argument(mode, name, t, depth, scope, roots)
        self.cost += self.weight * routine.cost
        texts = ", ".join(str(found[name]) for _, name, _ in routine.parameters)
        return None if None in found.values() else routine.name + (f"({texts})" if texts else "")

    def callees(self, scope, fits):
        """The routines that may be called here, by what they may do and by their cost."""
        fitting = [r for r in self.routines if r.cost * self.weight <= (300 if scope.routine else 3000) and fits(r) and (r.is_calm or not self.must_be_calm)]
        return [r for r in fitting if r.is_closed or not scope.routine or not scope.routine.is_closed]

    def within(self, t, depth, scope):
        """A value of an ordinal type that is in its range, whatever the switches."""
        if t.sort == "boolean" or t.low == t.high:
            return self.condition(depth, scope) if t.sort == "boolean" else str(t.low)
        number = f"Abs({self.number(depth, scope)} mod {t.high - t.low + 1})" + (f" + {t.low}" if t.low > 0 else f" - {-t.low}" if t.low < 0 else "")
        return {"char": f"Chr({number})", "enumeration": f"Colour({number})"}.get(t.sort, number)

    def leaf(self, scope, depth=0, is_wide=False):
        """An integer that is not constant, where it is asked as an Integer."""
        text, t = self.read(lambda t: t.sort in ("integer", "subrange"), depth, scope)
        return f"Integer({text})" if is_wide and t is not self.integer else text

    def operand(self, depth, scope):
        return self.one([str, "(-{})".format])(self.one(NUMBERS)) if self.often(0.4) else self.number(depth, scope)

    def number(self, depth, scope):
        """An integer expression in brackets, or a leaf, that is not constant."""
        if depth <= 0:
            return self.leaf(scope, depth)
        a, b, c = self.leaf(scope, depth - 1, is_wide=True), self.operand(depth - 1, scope), self.number(depth - 1, scope)
        calls = self.callees(scope, lambda r: r.result is self.integer and r.is_pure)
        forms = [
            lambda: f"({c} {self.one('+-')} {b})",
            lambda: f"({c} {self.one(['and', 'or', 'xor'])} {b})",
            lambda: f"({a} * {self.one([self.leaf(scope, depth - 1, is_wide=True), f'Integer({c})', '3', '65537'])})",
            lambda: f"({c} {self.one(['div', 'mod'])} {self.one([2, 3, 7, 10, -3, 255, 65536, -1000])})",
            lambda: f"({c} {self.one(['div', 'mod'])} (({self.leaf(scope)} and 15) + 1))",
            lambda: f"({a} {self.one(['shl', 'shr'])} {self.one([1, 3, 8, 31, f'({b} and 31)'])})",
            lambda: f"({a} + {self.leaf(scope)} - {b})",
            lambda: f"({self.one(['-', 'not '])}{a})",
            lambda: self.one([f"Abs(Integer({c}) mod 1000)", f"Sqr(Integer({c}) and 1023)", f"Succ({a})", f"Pred({a})", f"Ord('abcdefgh'[({c} and 7) + 1])"]),
            lambda: f"Ord({self.one([self.condition(depth - 1, scope), self.within(self.colour, 0, scope), self.value(self.char, 0, scope)])})",
            lambda: (self.called(self.one(calls), depth - 1, scope) if calls else None) or c,
        ]
        return self.one(forms + forms[:3] + forms[-1:])()

    def set_of(self, t, depth, scope):
        found = self.read(lambda other: other is t, depth, scope)
        made = self.one(["[]", "[Colour0..Colour1]", f"[{self.within(self.colour, 1, scope)}]"] if t is self.colours else
                        ["[]", f"[{self.random.randint(0, 15)}..{self.random.randint(16, 31)}]", f"[{self.number(1, scope)} and 31]", "[LowEnd..HighEnd]"])
        if depth <= 0 or not found:
            return found[0] if found else made
        return f"({self.set_of(t, depth - 1, scope)} {self.one('+*-')} {self.one([made, found[0]])})"

    def condition(self, depth, scope):
        """A Boolean expression in brackets, or a leaf."""
        found = self.read(lambda t: t.sort == "boolean", min(depth, 0), scope)
        if depth <= 0:
            return found[0] if found else f"Odd({self.leaf(scope, depth)})"
        order, equality, t = self.one(["=", "<>", "<", ">", "<=", ">="]), self.one(["=", "<>", "<=", ">="]), self.one([self.numbers, self.colours])
        element = self.within(self.colour, 1, scope) if t is self.colours else self.number(1, scope)
        return self.one([
            lambda: f"({self.number(depth - 1, scope)} {order} {self.operand(depth - 1, scope)})",
            lambda: f"({self.condition(depth - 1, scope)} {self.one(['and', 'or', 'xor', '=', '<>'])} {self.condition(depth - 1, scope)})",
            lambda: self.one([f"(not {self.condition(depth - 1, scope)})", f"Odd({self.number(depth - 1, scope)})"]),
            lambda: f"({self.value(self.char, 0, scope)} {order} {self.one([repr('m'), '#0', '#200'])})",
            lambda: f"({self.within(self.colour, 0, scope)} {order} {self.within(self.colour, 0, scope)})",
            lambda: f"({self.set_of(t, 1, scope)} {equality} {self.set_of(t, 1, scope)})",
            lambda: f"({element} in {self.set_of(t, 1, scope)})",
        ])()

    def value(self, t, depth, scope, is_safe=False):
        """A value that goes to a type; a safe one raises no error."""
        found = self.read(lambda other: other is t, 0, scope)
        if t.sort == "set":
            return self.set_of(t, depth, scope)
        if t.is_whole:
            makers = self.callees(scope, lambda r: r.result is t and r.is_pure)
            return (self.called(self.one(makers), 0, scope) if makers and not is_safe and self.often(0.5) else None) or (found and found[0])
        if t is self.char and found and self.often(0.5):
            return self.one([found[0], f"UpCase({found[0]})"])
        may_fail = t is self.integer or self.often(0.1 if self.checks_range else 0.8 if t in self.narrow else 0)
        return self.number(depth, scope) if not is_safe and t.sort in ("integer", "subrange") and may_fail else self.within(t, 0 if is_safe else depth, scope)

    def statements(self, count, scope, loop=False, leaves=True):
        """Statements: `loop` tells whether they stand in a loop that they may leave, `leaves` whether Exit may stand among them."""
        for _ in range(count):
            if not self.must_be_calm and self.often(0.12):
                self.switch(self.often(0.3), self.often(0.4))
            self.cost += self.weight
            plain = [self.assignment] * 8 + [self.call] * 3 + [self.changing, self.printing] * 2
            nested = [self.choice] * 2 + [self.case] + [self.counted] * 2 + [self.fuelled] * 2 + [self.finally_]
            leaving = [self.leaving] if loop or leaves and scope.routine else []
            leaving += [self.halting] if not (scope.routine and scope.routine.result) and self.often(0.15) else []
            self.one(plain + leaving + (nested if self.margin <= 5 and self.weight <= 200 else []))(scope, loop, leaves)

    def turns(self, most, scope, loop, leaves, turns=1, first=None):
        """At most so many statements, behind a first line, which are done so often at most."""
        self.weight *= turns
        if first:
            self.line(first)
        self.statements(self.random.randint(1, most), scope, loop, leaves)
        self.weight //= turns

    def block(self, *how, closing="end;"):
        self.inside("begin", lambda: self.turns(*how), closing)

    def assignment(self, scope, loop, leaves):
        place = self.one(self.places(scope.variables, lambda t: True))
        value = self.value(place[2], self.random.randint(1, 3), scope)
        self.line(f"{self.spelled(place, 1, scope)} := {value};")

    def call(self, scope, loop, leaves):
        """A function calls functions alone; what a function gives goes to a variable as it stands, or is dropped."""
        callees = self.callees(scope, lambda r: r.result or not scope.routine or not scope.routine.result)
        routine = self.one(callees) if callees else None
        call = routine and self.called(routine, self.random.randint(0, 2), scope)
        targets = [name for name, t in scope.variables if call and t is routine.result]
        self.line((f"{self.one(targets)} := " if targets and self.often(0.7) else "") + call + ";") if call else self.assignment(scope, loop, leaves)

    def changing(self, scope, loop, leaves):
        """Inc and Dec, of small types where nothing is checked; Include and Exclude."""
        is_free = not (self.checks_overflow or self.checks_range)
        place = self.one(self.places(scope.variables, lambda t: t is self.integer or t.sort == "set" or is_free and t in self.narrow))
        element = self.within(self.colour, 1, scope) if place[2] is self.colours else f"{self.number(1, scope)} and 31"
        names, more = (["Include", "Exclude"], f", {element}") if place[2].sort == "set" else (["Inc", "Dec"], self.one(["", f", {self.operand(1, scope) if place[2] is self.integer else self.number(1, scope)}"]))
        self.line(f"{self.one(names)}({self.spelled(place, 0, scope)}{more});")

    def printing(self, scope, loop, leaves):
        """Functions print nothing, since their order within an expression is left open."""
        if scope.routine and scope.routine.result or self.weight > 40:
            return self.assignment(scope, loop, leaves)
        width = self.one(["", f":{self.random.randint(-2, 14)}", f":{self.leaf(scope)} and 15"])
        self.line(f"WriteLn('=', {self.number(1, scope)}{width}, ' ', {self.condition(1, scope)}{self.one(['', ':7'])}, {self.leaf(scope)}:8);")

    def choice(self, scope, loop, leaves):
        self.line(f"if {self.condition(2, scope)} then")
        if self.often(0.5):
            self.block(2, scope, loop, leaves, closing="end")
            self.line("else")
        self.block(3, scope, loop, leaves)

    def case(self, scope, loop, leaves):
        cuts = sorted(self.random.sample(range(-16, 17), 8))
        labels = [self.one([f"{a}..{b - 1}", f"{a}", f"{a}, {b - 1}" if b - 1 > a else f"{a}"]) for a, b in zip(cuts[::2], cuts[1::2])]
        is_number = self.often(0.6)
        self.line(f"case Integer({self.number(2, scope)}) mod 16 of" if is_number else f"case {self.within(self.colour, 1, scope)} of")
        for label in labels if is_number else ["Colour1", "Colour0"]:
            self.line(f"  {label}:")
            self.block(2, scope, loop, leaves)
        if self.often(0.5):
            self.inside("else", lambda: self.turns(1, scope, loop, leaves))
        self.line("end;")

    def counted(self, scope, loop, leaves):
        t = self.one([self.integer, self.integer, self.one(self.narrow), self.letter, self.colour])
        name, turns, is_down = scope.counter(t), 4, self.often(0.3)
        first = self.random.randint(max(t.low + 1, -20), 100)
        bounds = str(first), f"{first} + ({self.leaf(scope)} and 3) - 1"
        if t.sort != "integer":
            bounds, turns = (self.within(t, 0, scope), self.within(t, 1, scope)), t.high - t.low + 1
        self.line(f"for {name} := {bounds[is_down]} {'downto' if is_down else 'to'} {bounds[not is_down]} do")
        scope.values.append((name, t))
        self.block(3, scope, True, leaves, turns)
        scope.values.remove((name, t))

    def fuelled(self, scope, loop, leaves):
        """A while or repeat with a counter that ends it."""
        name = scope.counter(self.integer)
        self.line(f"{name} := {self.random.randint(1, 6)};")
        how = 3, scope, True, leaves, 6, f"{name} := {name} - 1;"
        if self.often(0.5):
            self.line(f"while ({name} > 0) and {self.condition(2, scope)} do")
            self.block(*how)
        else:
            self.inside("repeat", lambda: self.turns(*how), f"until ({name} <= 0) or {self.condition(0, scope)};")

    def finally_(self, scope, loop, leaves):
        """No error comes up within: Free Pascal would do the finally part then."""
        was_calm, self.must_be_calm = self.must_be_calm, True
        self.switch(False, False)
        self.inside("try", lambda: self.turns(3, scope, loop, leaves))
        self.inside("finally", lambda: self.turns(2, scope, False, False), "end;")
        self.must_be_calm = was_calm

    def leaving(self, scope, loop, leaves):
        way = self.one((["Break", "Continue"] if loop else []) + (["Exit"] if leaves and scope.routine else []))
        value = self.value(scope.routine.result, 1, scope) if way == "Exit" and scope.routine.result and self.often(0.6) else None
        self.line(f"if {self.condition(1, scope)} then {way}" + (f"({value});" if value else ";"))

    def halting(self, scope, loop, leaves):
        """The program's end, which the main part tells of. It is in no function, since the order within an expression is left open."""
        halt = self.one(["Halt;", f"Halt({self.number(1, scope)} and 255);"])
        self.line(f"if {self.condition(1, scope)} then " + (halt if scope.routine else f"begin Show; {halt} end;"))

    def body(self, scope, count, beginning=(), end=()):
        """The counters of a body and its block, which is made first."""
        outer, self.lines, self.margin = self.lines, [], 1
        self.lines += ["  " + line for line in beginning]
        self.statements(count, scope)
        self.lines, self.margin = outer + [f"  {name}: {t.name};" for name, t in scope.counters] + ["begin"] + self.lines + ["  " + line for line in end], 0

    def routine(self, number):
        result = self.one([None, None, self.integer, self.one(self.types + self.simple)])
        is_closed, kinds = result is not None and result.is_whole, self.simple + self.types
        modes = ["value"] if is_closed else ["value", "value", "const", "var", "var", "out"]
        parameters = [(self.one(modes), f"p{k}", self.one(self.simple if is_closed else kinds)) for k in range(self.random.randint(0, 5))]
        parameters += [("value", "Depth", self.integer)] * self.often(0.3)
        is_recursive = parameters[-1:] and parameters[-1][1] == "Depth"
        routine = Routine(f"{'Function' if result else 'Procedure'}{number}", parameters, result, result is not None or self.often(0.5), is_closed)
        heading = "; ".join(f"{'' if mode == 'value' else mode + ' '}{name}: {t.name}" for mode, name, t in parameters)
        self.switch(False, False)
        self.line(("function " if result else "procedure ") + routine.name + (f"({heading})" if heading else "") + (f": {result.name};" if result else ";"))
        locals_ = [(f"v{k}", self.one(kinds)) for k in range(self.random.randint(1, 4))]
        self.lines += ["var", "  n: Integer;"] + [f"  {name}: {t.name} = {self.first(t)};" for name, t in locals_]
        own = locals_ + [(name, t) for mode, name, t in parameters if mode == "value" and name != "Depth"]
        written = [(name, t) for mode, name, t in parameters if mode in ("var", "out")] + ([("Result", result)] if result else []) + [("n", self.integer)]
        values = [(name, t) for mode, name, t in parameters if mode == "const"] + self.constants
        scope = Scope(routine, own + written, own, values, [] if is_closed else self.globals)
        self.must_be_calm, self.cost = routine.is_calm, 1
        beginning = ["n := 7;"] + ([f"Result := {next((name for name, t in self.constants if t is result), None) or self.first(result)};"] if result else [])
        again = self.called(routine, 0, scope) if is_recursive else None
        beginning += [f"if Depth > 0 then {'Result := ' if result else ''}{again[:-2]}Depth - 1);"] if again else []
        self.body(scope, self.random.randint(3, 8), beginning, ["{$Q-,R-}"])
        self.checks_overflow = self.checks_range = False
        self.lines += ["end;", ""]
        routine.cost = self.cost * (5 if is_recursive else 1)
        self.routines.append(routine)

    def shown(self, place, t, counters):
        """Statements that add up all parts of a place."""
        if t.sort == "array":
            counters.append({"boolean": "Boolean", "enumeration": "Colour", "char": "Char"}.get(t.index.sort, "Integer"))
            name = f"k{len(counters)}"
            return [f"for {name} := Low({place}) to High({place}) do", "begin"] + ["  " + line for line in self.shown(f"{place}[{name}]", t.element, counters)] + ["end;"]
        if t.sort == "record":
            return [line for name, part in t.fields for line in self.shown(f"{place}.{name}", part, counters)]
        name, bounds = ("Each", "Low(Colour) to High(Colour)") if t is self.colours else ("Every", "0 to 31")
        return [f"for {name} := {bounds} do Add(Ord({name} in {place}));" if t.sort == "set" else f"Add(Ord({place}));"]

    def show(self):
        """A procedure that prints what all variables have, a line for each."""
        counters, lines = [], []
        for name, t in self.globals:
            lines += ["  Total := 0;"] + ["  " + line for line in self.shown(name, t, counters)] + [f"  WriteLn('{name}', Total:12);"]
        self.lines += "procedure Add(n: Integer);|begin|  Total := Total * 31 + n;|end;||procedure Show;|var|  Each: Colour;|  Every: Integer;".split("|")
        self.lines += [f"  k{k}: {name};" for k, name in enumerate(counters, 1)] + ["begin"] + lines + ["end;", ""]

    def text(self):
        """The text of the program."""
        self.make_types()
        wholes = [t for t in self.types if t.sort in ("array", "record")]
        self.constants = [(f"Given{t.name}", t) for t in wholes]
        self.globals = [(f"g{k}", t) for k, t in enumerate(self.simple + wholes + [self.integer, self.one(wholes)])]
        self.lines = ["program Random;", "type"] + [f"  {t.name} = {t.text};" for t in self.types] + ["const"]
        self.lines += [f"  {name}: {t.name} = {self.first(t)};" for name, t in self.constants] + ["var", "  Total: Integer;", "  LowEnd: Byte = 3;", "  HighEnd: Byte = 12;"]
        self.lines += [f"  {name}: {t.name}" + (f" = {self.first(t)};" if self.often(0.6) else ";") for name, t in self.globals] + [""]
        self.cuts = [len(self.lines)]
        for number in range(self.random.randint(2, 7)):
            self.routine(number)
            self.cuts.append(len(self.lines))
        self.show()
        self.cuts.append(len(self.lines))
        self.must_be_calm, self.cost, self.weight = False, 0, 1
        scope = Scope(None, self.globals, self.globals, self.constants, [])
        self.lines += ["var"] if scope.counter(self.integer) else []
        self.body(scope, self.random.randint(10, 40), ["Show;"], ["{$Q-,R-}", "Show;"])
        return "\n".join(self.lines + ["end."]) + "\n"

    def files(self):
        """The same program in units, the main file first: what is declared in front of routines, each routine, and what shows the variables."""
        lines = self.text().split("\n")
        parts = [lines[first:past] for first, past in zip(self.cuts, self.cuts[1:])]
        found, used = {"kinds.pas": "\n".join(["unit Kinds;", "interface", *lines[1:self.cuts[0]], "implementation", "end."]) + "\n"}, ["Kinds"]
        for number, part in enumerate(parts):
            headings = [line for line in part if line.startswith(("function ", "procedure "))]
            tail = [["end."], [f"initialization Total := Total * 3 + {number}; end."], [f"begin if Total < {number} then Inc(Total, {number}) end."]][number % 3]
            found[f"part{number}.pas"] = "\n".join([f"unit Part{number};", "interface", f"uses {', '.join(used)};", *headings, "implementation", *part, *tail]) + "\n"
            used.append(f"Part{number}")
        return {"program.pas": "\n".join([lines[0], f"uses {', '.join(used)};", *lines[self.cuts[-1]:]]), **found}
