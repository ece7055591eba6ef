"""What the programs of interpreter.py have while they run: values, blocks, holders, and what falls.

Values: a number (int); a string (None or Text); a dynamic array (None or Array); an instance (None or Instance); a record or a
static array (a Python list of values, which is a place of its own for each part); a set (frozenset of numbers).
A place is a pair of a Python list and an index in it.
"""
import os
import sys

try:
    import pascal
except ImportError:
    sys.path.insert(0, os.path.join(os.path.dirname(os.path.abspath(__file__)), "..", "sem", "tests"))
    import pascal

CONSTRUCTION, LIVE, DESTRUCTION, DEAD = "construction", "live", "destruction", "dead"
RAISED = {200: ("edivbyzero", b"Division by zero"), 201: ("erangeerror", b"Range check error"), 215: ("eintoverflow", b"Integer overflow"), 219: ("einvalidcast", b"Invalid type cast")}
SPELLINGS = {n.lower(): n for n in ("TObject", "TInterfacedObject", "Exception", "EConvertError", "EInvalidCast", "EIntError", "EDivByZero", "ERangeError", "EIntOverflow")}
BLANKS = b" \t\r\n"


class Text:
    """A string's bytes. name 0 marks a literal, whose holders are not counted."""

    def __init__(self, data, name=0):
        self.data, self.name, self.count = bytearray(data), name, 0


class Array:
    """A dynamic array's elements, also the array of an open array parameter by value."""

    def __init__(self, elements, element, name):
        self.elements, self.element, self.name, self.count = elements, element, name, 0


class Instance:
    """count is the number of its interface places."""

    def __init__(self, of, fields, name, phase):
        self.of, self.fields, self.name, self.phase, self.count = of, fields, name, phase, 0


class Reference:
    """What a var, out or reference open array parameter stands for. guard: the instance that it lies in, checked at each use."""

    def __init__(self, box, index, guard):
        self.box, self.index, self.guard = box, index, guard


class OpenReference:
    """The elements that an open array parameter by reference goes over."""

    def __init__(self, elements, element, guard):
        self.elements, self.element, self.guard = elements, element, guard


class Place:
    """Where a path leads: box[index] of the type. array: the dynamic array that it lies in; character: an index in its string."""

    def __init__(self, box, index, type, guard=None, array=None, character=None):
        self.box, self.index, self.type, self.guard, self.array, self.character = box, index, type, guard, array, character


class Path:
    """A place whose indices are evaluated: a base (a variable's node or a box with a value) and steps (node, index or None)."""

    def __init__(self, variable, box, type, steps):
        self.variable, self.box, self.type, self.steps = variable, box, type, steps


class Activation:
    """cells: variable to [value], Reference or OpenReference. temporaries: pairs of a type and a cell. handled: instances of handlers."""

    def __init__(self, routine):
        self.routine, self.cells, self.temporaries, self.handled = routine, {}, [], []


class Outcome:
    """What a program did. status None: the steps were used up."""

    def __init__(self, blocks, output, errors, status):
        self.blocks, self.output, self.errors, self.status = blocks, output, errors, status

    def __repr__(self):
        return f"Outcome({self.blocks}, {self.output}, {self.errors}, {self.status})"


class Raised(Exception):
    """A Pascal exception is under way."""

    def __init__(self, instance):
        self.instance = instance


class Stop(Exception):
    """Halt, or an unhandled exception: all frames stay, and the closing goes on."""

    def __init__(self, status):
        self.status = status


class Ended(Exception):
    """A run-time error ended the program, or the steps were used up (None)."""

    def __init__(self, status):
        self.status = status


def low_bits(t, n):
    """The number kept in a predefined integer or Char."""
    n &= t.high - t.low
    return n - (t.high - t.low + 1) if n > t.high else n


def wrap(n):
    """The 32 bits signed of a number."""
    return (n + 2147483648 & 4294967295) - 2147483648


def size_and_alignment(t):
    """Bytes and alignment of a type's values in memory."""
    if t.kind == "record":
        at, most = 0, 1
        for f in t.fields:
            size, align = size_and_alignment(f.type)
            at, most = -(-at // align) * align + size, max(most, align)
        return -(-at // most) * most, most
    if t.kind == "array":
        size, align = size_and_alignment(t.element)
        return size * (t.index.high - t.index.low + 1), align
    if t in (pascal.SHORTINT, pascal.BYTE, pascal.BOOLEAN, pascal.CHAR):
        return 1, 1
    if t in (pascal.SMALLINT, pascal.WORD):
        return 2, 2
    return 4, 4


def size_of(t):
    """Bytes of a type's values."""
    return size_and_alignment(t)[0]


def ancestry(c):
    """A class and its ancestors, or an interface and its ancestors, nearest first."""
    while c is not None:
        yield c
        c = c.ancestor


def all_fields(c):
    """The fields of a class, ancestors' first."""
    return [f for k in reversed(list(ancestry(c))) for f in k.fields]


def descends(c, of):
    """Whether a class is another one or its descendant."""
    return of in ancestry(c)


def lists(c, face):
    """Whether a class itself lists an interface or a descendant of it."""
    return any(face in ancestry(f) for f in c.faces)


def implements(c, face):
    """Whether a class or an ancestor implements an interface."""
    return any(lists(k, face) for k in ancestry(c))


def spelled(c):
    """A class's name as declared, as far as the tree tells it."""
    return getattr(c, "spelled", SPELLINGS.get(c.name, c.name)).encode()


def override_root(m):
    """The virtual method that a method's overriding begins with."""
    while m.binding == "override":
        older = m.owner.ancestor.members[m.name]
        if older.binding == "static":
            break
        m = older
    return m


def virtual_target(c, m):
    """The routine that a virtual call of m reaches in an instance of class c."""
    root = override_root(m)
    for k in ancestry(c):
        for r in k.methods:
            if r.name == m.name and r.binding != "static" and override_root(r) is root:
                return r
    return m


def interface_target(c, face, m):
    """The routine that a call of m through an interface reaches in an instance of class c."""
    named = next(k for k in ancestry(c) if lists(k, face)).members[m.name]
    return named if named.binding == "static" else virtual_target(c, named)


def is_constant(e):
    """Whether an expression is one that the compiler evaluates."""
    if e.kind in ("ordinal", "text"):
        return True
    if e.kind in ("bracket", "prefix"):
        return is_constant(e.value)
    if e.kind == "convert":
        return e.conversion in ("keep", "low_bits", "check", "to_string") and e.value.kind != "nil" and is_constant(e.value)
    if e.kind == "apply":
        return e.function in ("succ", "pred", "abs", "sqr", "odd", "upcase", "length") and is_constant(e.value)
    return e.kind == "binary" and is_constant(e.left) and is_constant(e.right)


def is_nil(e):
    """Whether an expression is nil as written."""
    return e.kind == "nil" or e.kind == "convert" and e.value.kind == "nil"


def is_path(e):
    """Whether an expression is looked at in place: a variable, or a selection."""
    return e.kind in ("variable", "field", "index")


def valued(s):
    """What Val gives for bytes: the number and the code."""
    k = 0
    while k < len(s) and s[k] in b" \t":
        k += 1
    base, sign = 10, 1
    if s[k : k + 1] in (b"+", b"-"):
        sign, k = -1 if s[k] == 45 else 1, k + 1
    elif s[k : k + 1] in (b"$", b"&", b"%"):
        base, k = {36: 16, 38: 8, 37: 2}[s[k]], k + 1
    most = 4294967295 if base != 10 else 2147483647 if sign > 0 else 2147483648
    n, digits = 0, b"0123456789abcdef"[:base]
    if k == len(s):
        return 0, k + 1
    while k < len(s):
        d = digits.find(s[k : k + 1].lower())
        if d < 0 or n * base + d > most:
            return 0, k + 1
        n, k = n * base + d, k + 1
    return wrap(sign * n), 0


class Machine:
    """One run's state: blocks, holders, walks and destructions. Its descendant has activation(), which runs a routine.

    later: an exception that leaves a destructor goes on after it (the later rule), and is not unhandled at once."""

    def __init__(self, program, input, charge, stack, steps, later):
        self.program, self.input, self.at, self.charge, self.stack, self.steps, self.later = program, input, 0, charge, stack, steps, later
        self.blocks, self.output, self.errors, self.made, self.used, self.under_way = [], bytearray(), bytearray(), 0, 0, None
        self.globals = {v: [None] for v in program.globals}
        self.slots, self.literals = {}, {}
        for c in program.classes:
            for k, f in enumerate(all_fields(c)):
                self.slots[c, f] = k

    # ---- blocks

    def ask(self, size, slot=False):
        """A block's name."""
        self.blocks.append(("ask", size, slot))
        self.made += 1
        return self.made

    def free(self, name):
        self.blocks.append(("free", name))

    def new_text(self, data):
        """A new string, nil where it is empty."""
        return Text(data, self.ask((len(data) + 17 + 15) // 16 * 16)) if data else None

    def new_array(self, elements, element):
        """A new array of elements that are counted already."""
        return Array(elements, element, self.ask((len(elements) * size_of(element) + 16 + 15) // 16 * 16)) if elements else None

    def new_instance(self, c, phase):
        """A new instance with zero fields."""
        at = 0
        for f in all_fields(c):
            size, align = size_and_alignment(f.type)
            at = -(-at // align) * align + size
        return Instance(c, [self.zero(f.type) for f in all_fields(c)], self.ask((at + 16 + 15) // 16 * 16, True), phase)

    def literal(self, data):
        """A literal's string."""
        return Text(data) if data else None

    # ---- errors and the stack

    def error(self, number):
        """A run-time error: raised where it has a class and SysUtils is there, else the end."""
        if number in RAISED and self.program.exceptions:
            name, message = RAISED[number]
            c = next(c for c in self.program.classes if c.name == name)
            e = self.new_instance(c, LIVE)
            e.fields[0] = self.literal(message)
            raise Raised(e)
        self.errors += b"Runtime error %d\n" % number
        raise Ended(number)

    def push(self, size):
        """A frame's charge is taken, or error 202."""
        if self.used + size > self.stack:
            self.error(202)
        self.used += size

    def tick(self):
        self.steps -= 1
        if self.steps < 0:
            raise Ended(None)

    def used_instance(self, i):
        """An instance that is used: 216 where it is nil or dead."""
        if i is None or i.phase == DEAD:
            self.error(216)
        return i

    # ---- values of a type

    def zero(self, t):
        """The value that a variable starts with."""
        if t.kind == "record":
            return [self.zero(f.type) for f in t.fields]
        if t.kind == "array":
            return [self.zero(t.element) for _ in range(t.index.low, t.index.high + 1)]
        if t.kind in ("set", "emptyset"):
            return frozenset()
        return 0 if pascal.is_ordinal(t) else None

    def parts(self, t):
        """The types of the parts of a record or static array."""
        return [f.type for f in t.fields] if t.kind == "record" else [t.element] * (t.index.high - t.index.low + 1)

    def hold(self, t, v):
        """The value for one more place: the places in it count as holders."""
        if t.kind in ("record", "array"):
            return [self.hold(p, x) for p, x in zip(self.parts(t), v)]
        if v is not None and t.kind in ("string", "dynamic", "open", "interface"):
            v.count += 1
        return v

    def end(self, t, box, index):
        """The place loses what it has, and what nothing holds then falls at once."""
        if not pascal.is_managed(t):
            return
        if t.kind in ("record", "array"):
            self.walk(list(zip(self.parts(t), range(len(box[index])))), box[index])
            return
        v, box[index] = box[index], None
        if v is None:
            return
        v.count -= 1
        if v.count > 0:
            return
        if t.kind == "string":
            if v.name:
                self.free(v.name)
        elif t.kind == "interface":
            if v.phase == LIVE:
                self.destroy(v, "fall")
        else:
            self.walk([(v.element, k) for k in range(len(v.elements))] if pascal.is_managed(v.element) else [], v.elements, v.name)

    def walk(self, places, box, name=None):
        """Ends places one after the other, and gives the array's block up."""
        waiting, self.under_way = self.under_way, None
        before = waiting
        self.push(64)
        for t, k in places:
            try:
                self.end(t, box, k)
            except Raised as e:
                waiting = self.settle(waiting, e.instance)
        if name:
            self.free(name)
        self.used -= 64
        self.go_on(before, waiting)

    def settle(self, waiting, new):
        """What waits in a walk or destruction that a new exception has reached."""
        while waiting is not None and new is not None:
            old, new = new, None
            if old.phase == LIVE and old is not waiting:
                try:
                    self.destroy(old, "handler")
                except Raised as e:
                    new = e.instance
        return waiting if waiting is not None else new

    def go_on(self, before, waiting):
        """After a walk or destruction: what waited is under way again."""
        if before is not None:
            self.under_way = before
        elif waiting is not None:
            raise Raised(waiting)

    def unhandled(self, e):
        """Nothing takes the exception: its line is written and the closing comes."""
        if e.phase == DEAD:
            self.error(216)
        first = e.fields[0] if e.fields else None
        message = bytes(first.data) if isinstance(first, Text) else b""
        self.errors += b"Unhandled " + spelled(e.of) + b": " + message + b"\n"
        raise Stop(217)

    def destroy(self, i, started):
        """A destruction. started: fall, free, construction or handler."""
        waiting, self.under_way = self.under_way, None
        before = waiting
        self.push(64)
        i.phase = DESTRUCTION
        try:
            self.call_destroy(i)
        except Raised as e:
            if started != "free" and not self.later:
                self.unhandled(e.instance)
            waiting = self.settle(waiting, e.instance)
        fields = all_fields(i.of)
        for k, f in enumerate(fields):
            try:
                self.end(f.type, i.fields, k)
            except Raised as e:
                waiting = self.settle(waiting, e.instance)
        if i.count > 0 or any(self.filled(f.type, v) for f, v in zip(fields, i.fields)):
            self.error(204)
        i.phase = DEAD
        self.free(i.name)
        self.used -= 64
        self.go_on(before, waiting)

    def call_destroy(self, i):
        """Enters the Destroy of the instance's class."""
        r = virtual_target(i.of, i.of.members["destroy"])
        if r.abstract:
            self.error(211)
        self.activation(r, i, [])

    def filled(self, t, v):
        """Whether a value has a managed part that is not empty."""
        if t.kind in ("record", "array"):
            return pascal.is_managed(t) and any(self.filled(p, x) for p, x in zip(self.parts(t), v))
        return t.kind in ("string", "dynamic", "interface") and v is not None

    def free_exception(self, e, going=None):
        """Frees a handler's or a replaced exception's instance, while another one goes on."""
        if e.phase == LIVE and e is not going:
            self.under_way = going
            self.destroy(e, "handler")
            self.under_way = None

    # ---- temporaries

    def temporary(self, a, t, v):
        """One more place with the value, which ends with its statement. The answer is what that place has."""
        return self.moved(a, t, self.hold(t, v)) if pascal.is_managed(t) else v

    def moved(self, a, t, v):
        """A temporary that takes a result over, whose places are counted already."""
        if pascal.is_managed(t):
            a.temporaries.append((t, [v]))
        return v

    def end_temporaries(self, a, mark):
        """Ends the temporaries made since, the last one first."""
        while len(a.temporaries) > mark:
            t, cell = a.temporaries.pop()
            self.end(t, cell, 0)

    def unwind(self, a, mark, e):
        """Ends temporaries while an exception waits in the falls."""
        self.under_way = e
        self.end_temporaries(a, mark)
        self.under_way = None
