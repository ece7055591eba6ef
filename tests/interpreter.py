"""An interpreter of the typed trees of pascal.py, written from the rules of the language alone.

run(text, input, charge, stack, steps) answers an Outcome: the blocks asked for and given up in order, output, errors, status.
The state that it works on, and what ends and falls in it, is in machine.py.
"""
import sys
import threading

from machine import (BLANKS, CONSTRUCTION, DEAD, LIVE, Activation, Array, Ended, Instance, Machine, OpenReference, Outcome, Path, Place, Raised, Reference, Stop, Text,
                     descends, implements, interface_target, is_constant, is_nil, is_path, low_bits, pascal, spelled, valued, virtual_target, wrap)

COMPARISONS = ("=", "<>", "<", ">", "<=", ">=")


class Interpreter(Machine):
    """Expressions, calls and statements. An expression's value that is managed is in a temporary of its activation."""

    # ---- places

    def cell(self, a, v):
        """What a variable's name stands for in an activation."""
        return a.cells[v] if v in a.cells else self.globals[v]

    def prepare(self, a, e):
        """Evaluates a path's base, where it is a value, and its indices from left to right."""
        nodes = []
        while e.kind in ("field", "index"):
            nodes.append(e)
            e = e.object if e.kind == "field" else e.value
        while e.kind == "bracket" and e.type.kind == "open":
            e = e.value
        variable = e.variable if e.kind == "variable" else None
        box = None if variable else [self.value(a, e)]
        steps = [(n, self.value(a, n.index) if n.kind == "index" else None) for n in reversed(nodes)]
        return Path(variable, box, e.type, steps)

    def base(self, a, path):
        """The place where a path begins."""
        cell = path.box if path.box is not None else self.cell(a, path.variable)
        if isinstance(cell, Reference):
            if cell.guard is not None:
                self.used_instance(cell.guard)
            return Place(cell.box, cell.index, path.type, cell.guard)
        if isinstance(cell, OpenReference):
            if cell.guard is not None:
                self.used_instance(cell.guard)
            return Place([cell], 0, path.type, cell.guard)
        return Place(cell, 0, path.type)

    def follow(self, a, path):
        """The place that a path leads to, with its checks."""
        p = self.base(a, path)
        for node, index in path.steps:
            self.step(p, node, index)
        return p

    def step(self, p, node, index):
        """One selection of a path."""
        v, t = p.box[p.index], p.type
        p.type = node.type
        if node.kind == "field":
            if t.kind == "record":
                p.box, p.index = v, t.fields.index(node.field)
            else:
                self.used_instance(v)
                p.box, p.index, p.guard, p.array = v.fields, self.slots[v.of, node.field], v, None
        elif t.kind == "array":
            if not t.index.low <= index <= t.index.high:
                self.error(201)
            p.box, p.index = v, index - t.index.low
        elif t.kind == "string":
            if v is None or not 1 <= index <= len(v.data):
                self.error(201)
            p.character = index - 1
        else:
            if v is None or not 0 <= index < len(v.elements):
                self.error(201)
            p.box, p.index, p.guard = v.elements, index, getattr(v, "guard", None)
            p.array = v if t.kind == "dynamic" else None

    def look(self, a, e):
        """A value in place: no temporary where it is a variable or a selection, nor where it is an open array in brackets."""
        while e.kind == "bracket" and e.type.kind == "open":
            e = e.value
        if not is_path(e):
            return self.value(a, e)
        p = self.follow(a, self.prepare(a, e))
        return p.box[p.index]

    def store(self, t, p, v):
        """The value goes into the place, then the old one is dropped."""
        if p.character is not None:
            self.store_character(p, v)
            return
        old = [p.box[p.index]]
        new = self.hold(t, v)
        if t.kind in ("record", "array"):
            old = [list(old[0])]
            self.replace(t, p.box[p.index], new, old[0])
        else:
            p.box[p.index] = new
        self.end(t, old, 0)

    def replace(self, t, into, new, old):
        """Puts the parts of a record or static array in place; old gets what they were."""
        for k, part in enumerate(self.parts(t)):
            if part.kind in ("record", "array"):
                old[k] = list(into[k])
                self.replace(part, into[k], new[k], old[k])
            else:
                old[k], into[k] = into[k], new[k]

    def store_character(self, p, c):
        """s[i] := c, in place only for the only holder."""
        s = p.box[p.index]
        if s.name and s.count == 1:
            s.data[p.character] = c
            return
        new = self.new_text(s.data)
        new.data[p.character] = c
        self.renew(pascal.STRING, p, new)

    def renew(self, t, p, new):
        """A new string or array goes into its variable, then the old one is dropped."""
        old = [p.box[p.index]]
        p.box[p.index] = self.hold(t, new)
        self.end(t, old, 0)

    def converted(self, t, conversion, v):
        """A number that goes to a place of the type."""
        if conversion == "low_bits":
            return low_bits(t, v)
        if conversion == "check" and not t.low <= v <= t.high:
            self.error(201)
        return v

    def fits(self, t, v):
        """A set that goes to a place of a set type: 201 where its base lacks an element."""
        if t.kind == "set" and isinstance(v, frozenset) and any(not t.base.low <= x <= t.base.high for x in v):
            self.error(201)
        return v

    # ---- expressions

    def value(self, a, e):
        """An expression's value. A managed one is in a temporary of the activation."""
        if e.type is pascal.STRING and e.kind in ("binary", "convert", "bracket") and is_constant(e):
            return self.temporary(a, e.type, self.literal(self.folded(a, e)))
        return getattr(self, "value_" + e.kind)(a, e)

    def folded(self, a, e):
        """The bytes of a constant string."""
        if e.kind == "text":
            return e.value
        if e.type is not pascal.STRING:
            return bytes([self.value(a, e)])
        if e.kind == "binary":
            return self.folded(a, e.left) + self.folded(a, e.right)
        return self.folded(a, e.value)

    def value_ordinal(self, a, e):
        return e.value

    def value_text(self, a, e):
        return self.temporary(a, pascal.STRING, self.literal(e.value))

    def value_bracket(self, a, e):
        return self.look(a, e) if e.type.kind == "open" else self.value(a, e.value)

    def value_list(self, a, e):
        """A set constructor. Both ends of a range are checked at their turns, also of an empty one."""
        out, base = set(), e.type.base if e.type.kind == "set" else pascal.INTEGER
        if base.kind in ("integer", "char"):
            base = pascal.Type("subrange", low=0, high=255 if self.later else 31)
        for first, last in e.elements:
            x = self.converted(base, "check", self.value(a, first))
            y = x if last is None else self.converted(base, "check", self.value(a, last))
            out.update(range(x, y + 1))
        return frozenset(out)

    def value_variable(self, a, e):
        """A copy of what a path leads to."""
        p = self.follow(a, self.prepare(a, e))
        v = p.box[p.index]
        if p.character is not None:
            return v.data[p.character]
        if e.type.kind in ("record", "array") and not pascal.is_managed(e.type):
            return self.hold(e.type, v)
        return self.temporary(a, e.type, v)

    value_field = value_index = value_variable

    def value_convert(self, a, e):
        """A conversion or a cast."""
        t, source = e.type, e.value.type
        v = self.value(a, e.value)
        if t is pascal.STRING and pascal.is_ordinal(source):
            return self.temporary(a, t, self.new_text(bytes([v])))
        if e.conversion == "instance":
            return self.checked_class(a, t, v)
        if t.kind == "interface" and source.kind == "class":
            return self.temporary(a, t, v)
        if pascal.is_ordinal(t):
            return self.converted(t, e.conversion, v)
        return v

    def checked_class(self, a, t, v):
        """as, or a hard cast to a class."""
        if v is not None:
            self.used_instance(v)
            if not (descends(v.of, t) if t.kind == "class" else implements(v.of, t)):
                self.error(219)
        return self.temporary(a, t, v)

    def value_is(self, a, e):
        v = self.value(a, e.value)
        if v is None:
            return 0
        self.used_instance(v)
        return int(descends(v.of, e.of) if e.of.kind == "class" else implements(v.of, e.of))

    def value_prefix(self, a, e):
        v = self.value(a, e.value)
        if e.op == "+":
            return v
        if e.op == "not":
            return 1 - v if e.type is pascal.BOOLEAN else ~v
        return self.number(-v, e.checked)

    def number(self, n, checked):
        """A result in 32 bits, or error 215."""
        if checked and n != wrap(n):
            self.error(215)
        return wrap(n)

    def value_binary(self, a, e):
        op, t = e.op, e.left.type
        if op in ("=", "<>") and (is_nil(e.left) or is_nil(e.right)):
            x, y = self.look(a, e.left), self.look(a, e.right)
            return int((x is y) == (op == "="))
        if op in ("and", "or") and t is pascal.BOOLEAN:
            x = self.value(a, e.left)
            return x if x == (op == "or") else self.value(a, e.right)
        x, y = self.value(a, e.left), self.value(a, e.right)
        if t.kind == "string":
            return self.joined(a, x, y) if op == "+" else self.compared(op, bytes(x.data) if x else b"", bytes(y.data) if y else b"")
        if op == "in":
            return int(x in y)
        if isinstance(x, frozenset):
            return self.sets(op, x, y)
        if t.kind in ("class", "interface", "dynamic", "nil"):
            return int((x is y) == (op == "="))
        if op in COMPARISONS:
            return self.compared(op, x, y)
        return self.arithmetic(op, x, y, e.checked)

    def joined(self, a, x, y):
        """a + b: where one side is empty the other is shared."""
        if x is None or y is None:
            return self.temporary(a, pascal.STRING, y if x is None else x)
        return self.temporary(a, pascal.STRING, self.new_text(x.data + y.data))

    def compared(self, op, x, y):
        return int({"=": x == y, "<>": x != y, "<": x < y, ">": x > y, "<=": x <= y, ">=": x >= y}[op])

    def sets(self, op, x, y):
        if op in ("+", "-", "*"):
            return x | y if op == "+" else x - y if op == "-" else x & y
        return int({"=": x == y, "<>": x != y, "<=": x <= y, ">=": x >= y}[op])

    def arithmetic(self, op, x, y, checked):
        if op in ("div", "mod"):
            if y == 0:
                self.error(200)
            q = abs(x) // abs(y) * (1 if (x < 0) == (y < 0) else -1)
            return self.number(q, checked) if op == "div" else x - q * y
        if op in ("+", "-", "*"):
            return self.number(x + y if op == "+" else x - y if op == "-" else x * y, checked)
        if op in ("shl", "shr"):
            return wrap(x << (y & 31)) if op == "shl" else wrap((x & 4294967295) >> (y & 31))
        return {"and": x & y, "or": x | y, "xor": x ^ y}[op]

    def value_apply(self, a, e):
        """A function of System."""
        n, t = e.function, e.value.type
        if n in ("length", "low", "high") and t.kind == "array":
            self.prepare(a, e.value)
            return {"low": t.index.low, "high": t.index.high, "length": t.index.high - t.index.low + 1}[n]
        if n in ("length", "low", "high"):
            v = self.look(a, e.value)
            length = 0 if v is None else len(v.data if t.kind == "string" else v.elements)
            return {"low": 0, "high": length - 1, "length": length}[n]
        if n == "assigned":
            return int(self.look(a, e.value) is not None)
        v = self.value(a, e.value)
        if n == "classname":
            return self.temporary(a, pascal.STRING, self.literal(spelled(self.used_instance(v).of)))
        if n in ("succ", "pred"):
            v += 1 if n == "succ" else -1
            return self.number(v, e.checked) if t is pascal.INTEGER else self.converted(t, "check", v)
        if n == "odd":
            return v & 1
        if n == "upcase":
            return v - 32 if 97 <= v <= 122 else v
        return self.number(abs(v) if n == "abs" else v * v, e.checked)

    def value_copy(self, a, e):
        """Copy of a piece of a string or array."""
        v, first, count = self.look(a, e.value) if e.type.kind == "open" else self.value(a, e.value), self.value(a, e.first), self.value(a, e.count)
        return self.piece(a, e.type, v, first, count)

    def value_whole(self, a, e):
        v = self.look(a, e.value) if e.type.kind == "open" else self.value(a, e.value)
        return self.piece(a, e.type, v, 1 if e.type.kind == "string" else 0, 2147483647)

    def piece(self, a, t, v, first, count):
        text = t.kind == "string"
        start = max(first - 1 if text else first, 0)
        all_of_it = [] if v is None else v.data if text else v.elements
        piece = all_of_it[start : start + count] if count >= 1 else all_of_it[:0]
        new = self.new_text(piece) if text else self.new_array([self.hold(t.element, x) for x in piece], t.element)
        return self.temporary(a, t, new)

    def value_eof(self, a, e):
        return int(self.at >= len(self.input))

    def value_eoln(self, a, e):
        return int(self.at >= len(self.input) or self.input[self.at] == 10)

    def value_nil(self, a, e):
        return None

    value_nothing = value_nil

    # ---- calls

    def value_call(self, a, e):
        given = self.arguments(a, e.routine, e.arguments)
        return self.entered(a, e.routine, None, self.followed(a, e.routine, given))

    def value_method(self, a, e):
        """Receiver and arguments, then the tests, then the routine is looked up."""
        receiver = self.value(a, e.object)
        given = self.followed(a, e.routine, self.arguments(a, e.routine, e.arguments))
        return self.method(a, e.routine, e.dispatch, e.object.type, receiver, given)

    def method(self, a, r, dispatch, type, receiver, given):
        self.used_instance(receiver)
        if dispatch == "interface":
            r = interface_target(receiver.of, type, r)
        elif dispatch == "virtual":
            r = virtual_target(receiver.of, r)
        return self.entered(a, r, receiver, given)

    def value_construct(self, a, e):
        """A constructor called on a class: arguments, then the instance, then the activation."""
        given = self.followed(a, e.routine, self.arguments(a, e.routine, e.arguments))
        i = self.new_instance(e.type, CONSTRUCTION)
        try:
            self.entered(a, e.routine, i, given)
        except Raised as x:
            self.under_way = x.instance
            self.destroy(i, "construction")
            self.under_way = None
            raise Raised(x.instance)
        i.phase = LIVE
        return i

    def entered(self, a, r, receiver, given):
        """Enters a routine that is not abstract; its result is a temporary of the caller."""
        if r.abstract:
            self.error(211)
        v = self.activation(r, receiver, given)
        return self.moved(a, r.result.type, v) if r.result else None

    def arguments(self, a, r, nodes):
        """Evaluates arguments from left to right. Paths of those by reference are not followed yet."""
        given = []
        for p, node in zip(r.parameters, nodes):
            if p.type.kind == "open":
                given.append(self.open_argument(a, p, node))
            elif p.by_reference:
                given.append(self.prepare(a, node.value))
            else:
                given.append(self.fits(p.type, self.value(a, node.value)))
        return given

    def open_argument(self, a, p, node):
        """An argument for an open array: elements at once for a constructor and for the value form, else a path."""
        element = p.type.element
        if node.kind == "listed":
            elements = [self.value(a, e) for e in node.values]
            if pascal.is_managed(element):
                bounds = pascal.Type("subrange", low=0, high=len(elements) - 1)
                elements = self.temporary_array(a, pascal.Type("array", index=bounds, element=element), elements)
            source = OpenReference(elements, element, None)
        else:
            path = self.prepare(a, node.value)
            if p.mode != "value":
                return path
            source, _ = self.open_place(self.follow(a, path), element)
        if p.mode != "value":
            return source
        return self.temporary(a, p.type, self.new_array([self.hold(element, x) for x in source.elements], element))

    def temporary_array(self, a, t, elements):
        """A temporary static array with copies of the elements."""
        copies = self.hold(t, elements)
        a.temporaries.append((t, [copies]))
        return copies

    def open_place(self, p, element):
        """What a place gives for an open array by reference, and the dynamic array to be held."""
        v = p.box[p.index]
        if p.type.kind == "open":
            return (v, None) if isinstance(v, OpenReference) else (OpenReference(v.elements if v else [], element, None), None)
        if p.type.kind == "dynamic":
            return OpenReference(v.elements if v else [], element, None), v
        return OpenReference(v, element, p.guard), p.array

    def followed(self, a, r, given):
        """Follows the paths, then holds arrays, then empties out arguments."""
        held, out = [], list(given)
        for k, (p, g) in enumerate(zip(r.parameters, given)):
            if not isinstance(g, Path):
                continue
            place = self.follow(a, g)
            if p.type.kind == "open":
                out[k], array = self.open_place(place, p.type.element)
            else:
                out[k], array = Reference(place.box, place.index, place.guard), place.array
            if array is not None:
                held.append(array)
        for array in held:
            self.temporary(a, pascal.Type("dynamic", element=array.element), array)
        for p, g in zip(r.parameters, out):
            if p.mode == "out":
                self.emptied(p, g)
        return out

    def emptied(self, p, g):
        """An out argument loses its managed parts before the call."""
        element = p.type.element if p.type.kind == "open" else p.type
        if not pascal.is_managed(element):
            return
        if g.guard is not None:
            self.used_instance(g.guard)
        if p.type.kind == "open":
            self.walk([(element, k) for k in range(len(g.elements))], g.elements)
        else:
            self.end(p.type, g.box, g.index)

    def activation(self, r, receiver, given):
        """Runs a routine. The answer is its result, whose places are counted."""
        self.tick()
        self.push(self.charge)
        a = Activation(r)
        if r.object:
            a.cells[r.object] = [receiver]
        for p, g in zip(r.parameters, given):
            a.cells[p] = g if isinstance(g, (Reference, OpenReference)) else [self.hold(p.type, g)]
        for v in ([r.result] if r.result else []) + r.locals:
            a.cells[v] = [self.first(v)]
        e = None
        try:
            self.block(a, r.body)
        except Raised as x:
            e = x.instance
        e = self.ended(a, e)
        if e is not None:
            if r.result:
                e = self.ended_one(r.result.type, a.cells[r.result], e)
            self.used -= self.charge
            raise Raised(e)
        self.used -= self.charge
        return a.cells[r.result][0] if r.result else None

    def ended(self, a, e):
        """Ends temporaries, parameters and locals. e: the exception under way, before and after."""
        while a.temporaries:
            t, cell = a.temporaries.pop()
            e = self.ended_one(t, cell, e)
        for v in a.routine.parameters + a.routine.locals:
            if isinstance(a.cells[v], list):
                e = self.ended_one(v.type, a.cells[v], e)
        return e

    def ended_one(self, t, cell, e):
        """Ends one place of an activation that is left."""
        self.under_way = e
        try:
            self.end(t, cell, 0)
        except Raised as x:
            e = x.instance
        self.under_way = None
        return e

    def first(self, v):
        """The value that a variable starts with."""
        if v.first is None:
            return self.zero(v.type)
        if v.type is pascal.STRING:
            return self.literal(self.folded(None, v.first))
        return self.value(None, v.first)

    # ---- statements. The answer is None, exit, break or continue.

    def block(self, a, statements):
        for s in statements:
            code = self.statement(a, s)
            if code:
                return code
        return None

    def statement(self, a, s):
        """Runs a statement and ends its temporaries."""
        self.tick()
        mark = len(a.temporaries)
        code = getattr(self, "do_" + s.kind)(a, s)
        self.end_temporaries(a, mark)
        return code

    def condition(self, a, e):
        """A condition's value, after its temporaries have ended."""
        mark = len(a.temporaries)
        v = self.value(a, e)
        self.end_temporaries(a, mark)
        return v

    def do_block(self, a, s):
        return self.block(a, s.body)

    def do_if(self, a, s):
        if self.condition(a, s.condition):
            return self.statement(a, s.then)
        return self.statement(a, s.otherwise) if s.otherwise else None

    def do_while(self, a, s):
        while self.condition(a, s.condition):
            self.tick()
            code = self.statement(a, s.body)
            if code in ("exit", "break"):
                return code if code == "exit" else None
        return None

    def do_repeat(self, a, s):
        while True:
            self.tick()
            code = self.block(a, s.body)
            if code in ("exit", "break"):
                return code if code == "exit" else None
            if self.condition(a, s.condition):
                return None

    def do_for(self, a, s):
        """A for over bounds: the next value is counted from the first one."""
        mark = len(a.temporaries)
        first, last = self.value(a, s.first), self.value(a, s.last)
        self.end_temporaries(a, mark)
        turns = range(first, last - 1, -1) if s.down else range(first, last + 1)
        t = s.variable.type
        if turns and not (t.low <= first <= t.high and t.low <= last <= t.high):
            self.error(201)
        for n in turns:
            self.tick()
            self.cell(a, s.variable)[0] = n
            code = self.statement(a, s.body)
            if code in ("exit", "break"):
                return code if code == "exit" else None
        return None

    def do_forin(self, a, s):
        """A for over a collection, which is a temporary of the statement but for an open array."""
        c = self.look(a, s.collection) if s.collection.type.kind == "open" else self.value(a, s.collection)
        guard = getattr(c, "guard", None)
        items = [] if c is None else sorted(c) if isinstance(c, frozenset) else c if isinstance(c, list) else c.data if isinstance(c, Text) else c.elements
        for k in range(len(items)):
            self.tick()
            if guard is not None:
                self.used_instance(guard)
            self.element(a, s, items[k])
            code = self.statement(a, s.body)
            if code in ("exit", "break"):
                return code if code == "exit" else None
        return None

    def element(self, a, s, x):
        """The copy of an element is a temporary that ends before the body."""
        mark, t = len(a.temporaries), s.variable.type
        if pascal.is_managed(s.element):
            self.temporary(a, s.element, x)
        if s.store == "to_string":
            x = self.temporary(a, t, self.new_text(bytes([x])))
        elif s.store == "to_interface":
            self.temporary(a, t, x)
        elif pascal.is_ordinal(t):
            x = self.converted(t, s.store, x)
        self.store(t, self.base(a, Path(s.variable, None, t, [])), x)
        self.end_temporaries(a, mark)

    def do_case(self, a, s):
        v = self.condition(a, s.selector)
        for labels, body in s.branches:
            if any(low <= v <= high for low, high in labels):
                return self.statement(a, body)
        return self.block(a, s.otherwise)

    def do_finally(self, a, s):
        """try finally: the exception waits while the finally part runs."""
        mark = len(a.temporaries)
        try:
            code = self.block(a, s.body)
        except Raised as e:
            self.unwind(a, mark, e.instance)
            try:
                self.block(a, s.finalization)
            except Raised as n:
                self.unwind(a, mark, n.instance)
                self.free_exception(e.instance, n.instance)
                raise Raised(n.instance)
            raise Raised(e.instance)
        self.block(a, s.finalization)
        return code

    def do_except(self, a, s):
        mark = len(a.temporaries)
        try:
            return self.block(a, s.body)
        except Raised as e:
            caught = e.instance
        self.unwind(a, mark, caught)
        return self.handle(a, s, caught)

    def handle(self, a, s, e):
        """Looks for the first clause that fits and runs it as a handler."""
        variable, body = None, s.otherwise
        if s.handlers and e.phase == DEAD:
            self.error(216)
        for c, v, statement in s.handlers:
            if descends(e.of, c):
                variable, body = v, [statement]
                break
        if body is None:
            raise Raised(e)
        if variable is not None:
            self.cell(a, variable)[0] = e
        mark = len(a.temporaries)
        a.handled.append(e)
        try:
            code = self.block(a, body)
        except Raised as n:
            a.handled.pop()
            self.unwind(a, mark, n.instance)
            self.free_exception(e, n.instance)
            raise Raised(n.instance)
        a.handled.pop()
        self.free_exception(e)
        return code

    def do_raise(self, a, s):
        raise Raised(self.used_instance(self.value(a, s.exception)))

    def do_reraise(self, a, s):
        raise Raised(self.used_instance(a.handled[-1]))

    def do_assign(self, a, s):
        v = self.fits(s.place.type, self.value(a, s.value))
        self.store(s.place.type, self.follow(a, self.prepare(a, s.place)), v)

    def do_setter(self, a, s):
        v = self.value(a, s.value)
        self.method(a, s.routine, s.dispatch, s.object.type, self.value(a, s.object), [v])

    def do_call(self, a, s):
        self.value(a, s.call)

    def do_free(self, a, s):
        """Free and FreeAndNil."""
        if s.empties:
            p = self.follow(a, self.prepare(a, s.object))
            v, p.box[p.index] = p.box[p.index], None
        else:
            v = self.value(a, s.object)
        if v is not None:
            self.freed(self.used_instance(v))

    def do_destroy(self, a, s):
        self.freed(self.used_instance(self.value(a, s.object)))

    def freed(self, i):
        """Free of an instance that is no nil: 204 where it is held or not live."""
        if i.count > 0 or i.phase != LIVE:
            self.error(204)
        self.destroy(i, "free")

    def do_count(self, a, s):
        """Inc and Dec: the place is read, then the amount, then the store."""
        path = self.prepare(a, s.place)
        p = self.follow(a, path)
        x, n = p.box[p.index], self.value(a, s.amount)
        v = self.converted(s.place.type, s.store, self.number(x - n if s.down else x + n, s.checked))
        p = self.follow(a, path)
        p.box[p.index] = v

    def do_setlength(self, a, s):
        path, n, t = self.prepare(a, s.place), self.value(a, s.length), s.place.type
        if n < 0:
            self.error(201)
        p = self.follow(a, path)
        old = p.box[p.index]
        items = [] if old is None else old.data if t is pascal.STRING else old.elements
        if n == 0:
            self.renew(t, p, None)
        elif len(items) == n and old.name and old.count == 1:
            return
        elif t is pascal.STRING:
            self.renew(t, p, self.new_text(bytes(items[:n]) + bytes(n - min(n, len(items)))))
        else:
            kept = [self.hold(t.element, x) for x in items[:n]]
            self.renew(t, p, self.new_array(kept + [self.zero(t.element) for _ in range(n - len(kept))], t.element))

    def do_include(self, a, s):
        path, x, t = self.prepare(a, s.place), self.value(a, s.element), s.place.type
        if not t.base.low <= x <= t.base.high:
            self.error(201)
        p = self.follow(a, path)
        p.box[p.index] = p.box[p.index] | {x} if s.kind == "include" else p.box[p.index] - {x}

    do_exclude = do_include

    def do_halt(self, a, s):
        raise Stop(self.value(a, s.status) & 255)

    def do_exit(self, a, s):
        if s.value is not None:
            v, result = self.value(a, s.value), a.routine.result
            self.store(result.type, Place(a.cells[result], 0, result.type), self.fits(result.type, v))
        return "exit"

    def do_break(self, a, s):
        return "break"

    def do_continue(self, a, s):
        return "continue"

    def do_empty(self, a, s):
        return None

    # ---- the console

    def shown(self, t, v, width):
        """The text of a value as Write writes it."""
        if t.kind == "string":
            text = bytes(v.data) if v else b""
        elif pascal.host(t).kind == "char":
            text = bytes([v])
        else:
            text = (b"FALSE", b"TRUE")[v] if pascal.host(t).kind == "boolean" else b"%d" % v
        return text if width is None else text.rjust(max(width, 0))

    def do_write(self, a, s):
        for e, w in s.items:
            v = self.value(a, e)
            self.output += self.shown(e.type, v, None if w is None else self.value(a, w))
        if s.ends:
            self.output += b"\n"

    def do_read(self, a, s):
        """Read goes item by item; ReadLn then passes over the rest of the line."""
        for e, conversion in s.targets:
            path, t = self.prepare(a, e), e.type
            if t is pascal.STRING:
                v = self.read_line(a)
            else:
                v = self.converted(t, conversion, self.read_char() if pascal.host(t).kind == "char" else self.read_number())
            self.store(t, self.follow(a, path), v)
        if s.ends:
            end = self.input.find(b"\n", self.at)
            self.at = len(self.input) if end < 0 else end + 1

    def read_char(self):
        self.at += 1
        return self.input[self.at - 1] if self.at <= len(self.input) else self.end_of_input()

    def end_of_input(self):
        """#26 where no byte is left."""
        self.at = len(self.input)
        return 26

    def read_number(self):
        while self.at < len(self.input) and self.input[self.at] in BLANKS:
            self.at += 1
        start = self.at
        while self.at < len(self.input) and self.input[self.at] > 32:
            self.at += 1
        v, code = valued(self.input[start : self.at]) if self.at > start else (0, 0)
        if code:
            self.error(106)
        return v

    def read_line(self, a):
        """The bytes before the next LF, grown in a line buffer, as a temporary."""
        end = self.input.find(b"\n", self.at)
        data = self.input[self.at : len(self.input) if end < 0 else end]
        self.at += len(data)
        if not data:
            return None
        capacity, buffer = 64, self.ask(96)
        while capacity <= len(data):
            capacity *= 2
            new = self.ask((capacity + 17 + 15) // 16 * 16)
            self.free(buffer)
            buffer = new
        v = self.temporary(a, pascal.STRING, self.new_text(data))
        self.free(buffer)
        return v

    def do_val(self, a, s):
        text = self.value(a, s.text)
        places = [(e, c, self.prepare(a, e)) for e, c in (s.value, s.code)]
        for (e, conversion, path), n in zip(places, valued(bytes(text.data) if text else b"")):
            n = self.converted(e.type, conversion, n)
            self.store(e.type, self.follow(a, path), n)

    def do_str(self, a, s):
        e, w = s.value
        v = self.value(a, e)
        width = None if w is None else self.value(a, w)
        path = self.prepare(a, s.place)
        text = self.temporary(a, pascal.STRING, self.new_text(self.shown(e.type, v, width)))
        self.store(pascal.STRING, self.follow(a, path), text)

    # ---- a program

    def part(self):
        """The main part as an activation, and what no handler takes."""
        r = pascal.Routine("", "procedure", [], None)
        r.body = self.program.main
        try:
            self.activation(r, None, [])
        except Raised as e:
            self.unhandled(e.instance)

    def run(self):
        """The status: the main part, then the closing."""
        try:
            for v in self.program.globals:
                self.globals[v][0] = self.first(v)
            return self.closing(self.until_stop(self.part, 0))
        except Ended as e:
            return e.status

    def until_stop(self, work, status):
        """Does a piece of work; Halt or an unhandled exception gives the status."""
        try:
            work()
        except Stop as e:
            return e.status
        return status

    def closing(self, status):
        """Empties the globals in order of declaration; a Halt in it goes on with the next one."""
        for v in self.program.globals:
            self.under_way = None
            status = self.until_stop(lambda: self.close(v), status)
        return status

    def close(self, v):
        try:
            self.end(v.type, self.globals[v], 0)
        except Raised as e:
            self.unhandled(e.instance)


def run(text, input=b"", charge=304, stack=1048576, steps=10_000_000, later=False):
    """What a program does with an input."""
    answer = []

    def work():
        try:
            i = Interpreter(pascal.read(text), input, charge, stack, steps, later)
            status = i.run()
            answer.append(Outcome(i.blocks, bytes(i.output), bytes(i.errors), status))
        except BaseException as e:
            answer.append(e)

    sys.setrecursionlimit(1_000_000)
    threading.stack_size(512 * 1024 * 1024)
    thread = threading.Thread(target=work)
    thread.start()
    thread.join()
    threading.stack_size(0)
    if isinstance(answer[0], BaseException):
        raise answer[0]
    return answer[0]


if __name__ == "__main__":
    outcome = run(open(sys.argv[1]).read(), sys.stdin.buffer.read() if len(sys.argv) > 2 else b"")
    print(*outcome.blocks, sep="\n")
    print(outcome.output.decode("latin-1"), outcome.errors.decode("latin-1"), outcome.status, sep="\n")
