"""Runs the definitions of the crates' specs/ as they stand.

It reads the part of the language in which states and steps are defined: functions by clauses, records, lists, options,
finite maps and sets, lambdas and lets. Each definition becomes a Python function; arguments are evaluated when they are
needed, data at once. What it can't read (types, laws) is passed over. Nothing here is proved: it is a second reading of
the definitions, to try them on examples.

A natural number is an int, a truth value a bool, a list or a tuple a tuple, a record a `Record`, any other constructor a
`Data`, and a finite map or set a `Finite`.
"""

import os
import re
import sys
import threading


# ---- values


class Data:
    """A constructor with its arguments."""

    __slots__ = ("name", "args", "_hash")

    def __init__(self, name, args=()):
        self.name, self.args, self._hash = name, args, None

    def __eq__(self, other):
        return self is other or (isinstance(other, Data) and self.name == other.name and self.args == other.args)

    def __hash__(self):
        if self._hash is None:
            self._hash = hash((self.name, self.args))
        return self._hash

    def __repr__(self):
        return "(" + " ".join([self.name] + [repr(a) for a in self.args]) + ")" if self.args else self.name


class Record:
    """A record: its fields in order."""

    __slots__ = ("names", "values", "_hash")

    def __init__(self, names, values):
        self.names, self.values, self._hash = names, values, None

    def get(self, name):
        return self.values[self.names.index(name)]

    def updated(self, names, values):
        new = list(self.values)
        for name, value in zip(names, values):
            new[self.names.index(name)] = value
        return Record(self.names, tuple(new))

    def __eq__(self, other):
        if self is other:
            return True
        if not isinstance(other, Record) or len(self.names) != len(other.names):
            return False
        return self.values == other.values if self.names == other.names else all(
            name in other.names and other.get(name) == value for name, value in zip(self.names, self.values)
        )

    def __hash__(self):
        if self._hash is None:
            self._hash = hash(frozenset(zip(self.names, self.values)))
        return self._hash

    def __repr__(self):
        return "{" + "; ".join(f"{n} = {v!r}" for n, v in zip(self.names, self.values)) + "}"


class Finite:
    """A finite map, or a set: a map to nothing."""

    __slots__ = ("items", "_entries")

    def __init__(self, items):
        self.items, self._entries = items, None

    def entries(self):
        """Ascending by key: a record's fields in order, lists by their items."""
        if self._entries is None:
            self._entries = tuple(sorted(self.items.items(), key=lambda e: order_of(e[0])))
        return self._entries

    def with_entry(self, key, value):
        return Finite({**self.items, key: value})

    def without(self, key):
        return Finite({k: v for k, v in self.items.items() if k != key})

    def where(self, test):
        return Finite({k: v for k, v in self.items.items() if test(k)})

    def __eq__(self, other):
        return isinstance(other, Finite) and self.items == other.items

    def __hash__(self):
        return hash(frozenset(self.items.items()))

    def __repr__(self):
        return "finite" + repr(self.entries())


def order_of(value):
    if isinstance(value, int):
        return int(value)
    if isinstance(value, tuple):
        return tuple(order_of(v) for v in value)
    return tuple(order_of(v) for v in value.values)


NONE = Data("None")


def some(value):
    return Data("Some", (value,))


def numbered(number):
    """A type with one field, as a page, a writer or a stamp."""
    return Record(("0",), (number,))


# ---- evaluation


class Later:
    """An argument that is evaluated when it is needed, once."""

    __slots__ = ("make", "value")

    def __init__(self, make):
        self.make, self.value = make, None


def force(value):
    while isinstance(value, Later):
        if value.make is not None:
            make, value.make = value.make, None
            value.value = force(make())
        value = value.value
    return value


class Function:
    """A function of so many arguments, some of which it may have already."""

    __slots__ = ("arity", "body", "given")

    def __init__(self, arity, body, given=()):
        self.arity, self.body, self.given = arity, body, given


def apply(function, *args):
    function = force(function)
    while args:
        if isinstance(function, Data):
            return Data(function.name, function.args + tuple(force(a) for a in args))
        wanting = function.arity - len(function.given)
        if len(args) < wanting:
            return Function(function.arity, function.body, function.given + args)
        function, args = force(function.body(*function.given, *args[:wanting])), args[wanting:]
    return function


def field(value, name):
    value = force(value)
    return value[int(name)] if isinstance(value, tuple) else value.get(name)


# ---- the words of the library


def strict(arity, body):
    return Function(arity, lambda *args: body(*(force(a) for a in args)))


def call(function, *args):
    return force(apply(function, *args))


def compared(a, b):
    return Data("Less") if a < b else Data("Greater") if a > b else Data("Equal")


LIBRARY = {
    "true": True,
    "false": False,
    "zero": 0,
    "None": NONE,
    "tt": (),
    "not": strict(1, lambda a: not a),
    "nat_eq": strict(2, lambda a, b: a == b),
    "nat_lt": strict(2, lambda a, b: a < b),
    "nat_le": strict(2, lambda a, b: a <= b),
    "max": strict(2, max),
    "min": strict(2, min),
    "suc": strict(1, lambda a: a + 1),
    "length": strict(1, len),
    "reverse": strict(1, lambda xs: xs[::-1]),
    "take": strict(2, lambda n, xs: xs[:n]),
    "drop": strict(2, lambda n, xs: xs[n:]),
    "map": strict(2, lambda f, xs: tuple(call(f, x) for x in xs)),
    "filter": strict(2, lambda f, xs: tuple(x for x in xs if call(f, x))),
    "filter_map": strict(2, lambda f, xs: tuple(y.args[0] for y in (call(f, x) for x in xs) if y.name == "Some")),
    "list_any": strict(2, lambda f, xs: any(call(f, x) for x in xs)),
    "list_all": strict(2, lambda f, xs: all(call(f, x) for x in xs)),
    "sum_by": strict(2, lambda f, xs: sum(call(f, x) for x in xs)),
    "count_by": strict(2, lambda f, xs: sum(1 for x in xs if call(f, x))),
    "prefix_len": strict(2, lambda f, xs: next((i for i, x in enumerate(xs) if not call(f, x)), len(xs))),
    "slice_get": strict(2, lambda xs, i: some(xs[i]) if i < len(xs) else NONE),
    "slice_set": strict(3, lambda xs, i, x: xs[:i] + (x,) + xs[i + 1 :] if i < len(xs) else xs),
    "lookup": strict(2, lambda f, xs: next((some(e[1]) for e in xs if call(f, e[0])), NONE)),
    "option_map": strict(2, lambda f, o: NONE if o.name == "None" else some(call(f, o.args[0]))),
    "option_eq": strict(3, lambda f, a, b: a.name == b.name and (a.name == "None" or call(f, a.args[0], b.args[0]))),
    "unwrap_or": strict(2, lambda o, other: other if o.name == "None" else o.args[0]),
    "is_some": strict(1, lambda o: o.name == "Some"),
    "is_none": strict(1, lambda o: o.name == "None"),
    "pointwise": strict(3, lambda f, a, b: len(a) == len(b) and all(call(f, x, y) for x, y in zip(a, b))),
    "slice_cmp": strict(3, lambda f, a, b: compared(a, b)),
    "nat_cmp": strict(2, compared),
    "is_lt": strict(1, lambda o: o.name == "Less"),
}
SAME = strict(2, lambda a, b: a == b)
MAPS = {
    "empty": Finite({}),
    "get": strict(2, lambda m, k: some(m.items[k]) if k in m.items else NONE),
    "insert": strict(3, lambda m, k, v: m.with_entry(k, v)),
    "remove": strict(2, lambda m, k: m.without(k)),
    "entries": strict(1, lambda m: m.entries()),
    "keys": strict(1, lambda m: tuple(e[0] for e in m.entries())),
    "from_entries": strict(1, lambda es: Finite(dict(reversed(es)))),
    "contains_key": strict(2, lambda m, k: k in m.items),
    "retain_keys": strict(2, lambda m, f: m.where(lambda k: call(f, k))),
}
SETS = {
    "empty": Finite({}),
    "contains": strict(2, lambda s, k: k in s.items),
    "insert": strict(2, lambda s, k: s.with_entry(k, ())),
    "remove": strict(2, lambda s, k: s.without(k)),
    "retain": strict(2, lambda s, f: s.where(lambda k: call(f, k))),
    "items": strict(1, lambda s: tuple(e[0] for e in s.entries())),
    "from_list": strict(1, lambda xs: Finite({x: () for x in xs})),
}


# ---- reading


class Unread(Exception):
    """What stands there is of no kind that is read here."""


TOKEN = re.compile(
    r"\s*(?:(?P<num>\d+)|(?P<id>[A-Za-z_ℕ⊥⊤][A-Za-z0-9_ℕ]*(?:-[A-Za-z0-9_]+)*)"
    r"|(?P<op>∷|\+\+|&&|\|\||×|≡|≢|→|↔|λ|⊎|≤|<|[-+*/%^.,:;=(){}\[\]←|]))"
)
LEVELS = [{"||": "right"}, {"&&": "right"}, {"∷": "right", "++": "right"}, {"+": "left", "-": "left"}]
LEVELS += [{"*": "left", "/": "left", "%": "left"}, {"^": "right"}]
KEYWORDS = ("in", "then", "else", "let", "where", "if")


def tokens_of(text):
    tokens, at = [], 0
    while at < len(text) and text[at:].strip():
        found = TOKEN.match(text, at)
        if not found or found.end() == at:
            raise Unread(text[at : at + 30])
        kind = found.lastgroup
        tokens.append((kind, found.group(kind), found.start(kind), found.end()))
        at = found.end()
    return tokens


class Reader:
    """Reads patterns and terms from tokens: (kind, text, start, end) each."""

    END = ("end", "", -1, -1)

    def __init__(self, text):
        self.tokens, self.at = tokens_of(text), 0

    def peek(self, ahead=0):
        return self.tokens[self.at + ahead] if self.at + ahead < len(self.tokens) else self.END

    def next(self):
        self.at += 1
        return self.tokens[self.at - 1] if self.at <= len(self.tokens) else self.END

    def is_(self, text):
        return self.peek()[1] == text and self.peek()[0] != "num"

    def expect(self, text):
        if self.next()[1] != text:
            raise Unread(f"no {text}")

    def skip_type(self, end):
        depth = 0
        while depth or not self.is_(end):
            depth += {"(": 1, "{": 1, ")": -1, "}": -1}.get(self.peek()[1], 0)
            if self.next() == self.END:
                raise Unread("type")

    def term(self, level=0):
        if level == len(LEVELS):
            return self.application()
        left = self.term(level + 1)
        while self.peek()[0] == "op" and self.peek()[1] in LEVELS[level]:
            operator = self.next()[1]
            if LEVELS[level][operator] == "right":
                return ("op", operator, left, self.term(level))
            left = ("op", operator, left, self.term(level + 1))
        return left

    def application(self):
        if self.is_("λ"):
            return self.lambda_()
        if self.is_("let"):
            return self.let()
        if self.is_("if"):
            self.next()
            test = self.term()
            self.expect("then")
            yes = self.term()
            self.expect("else")
            return ("if", test, yes, self.term())
        function, args = self.atom(), []
        while True:
            kind, text = self.peek()[:2]
            if text == "λ":
                args.append(self.lambda_())
                break
            if text == "{":
                self.next()
                self.skip_type("}")
                self.next()
            elif kind == "num" or (kind == "id" and text not in KEYWORDS) or text in ("(", "["):
                args.append(self.atom())
            else:
                break
        return ("apply", function, args) if args else function

    def lambda_(self):
        self.expect("λ")
        names = []
        while not self.is_("."):
            if self.is_("("):
                self.next()
                names.append(self.next()[1])
                self.skip_type(")")
                self.next()
            else:
                names.append(self.next()[1])
        self.next()
        return ("lambda", names, self.term())

    def let(self):
        self.expect("let")
        pattern = self.pattern_atom() if self.is_("(") else ("var", self.next()[1])
        if self.is_(":"):
            self.skip_type("=")
        self.expect("=")
        value = self.term()
        self.expect("in")
        return ("let", pattern, value, self.term())

    def atom(self):
        kind, text, _, end = self.next()
        if kind == "num":
            value = ("num", int(text))
        elif text == "(":
            values = [self.term()]
            if self.is_(":"):
                self.skip_type(")")
            while self.is_(","):
                self.next()
                if not self.is_(")"):
                    values.append(self.term())
            end = self.peek()[3]
            self.expect(")")
            value = values[0] if len(values) == 1 else ("tuple", values)
        elif text == "[":
            end = self.peek()[3]
            self.expect("]")
            value = ("nil",)
        elif text == "record" and kind == "id":
            value, end = self.record()
        elif kind == "id":
            value = ("name", text)
        else:
            raise Unread(text)
        while self.peek()[1] == "." and self.peek()[2] == end and self.peek(1)[2] == self.peek()[3]:
            self.next()
            name = self.next()
            value, end = ("field", value, name[1]), name[3]
        return value

    def record(self):
        base = None if self.is_("{") else self.atom()
        self.expect("{")
        fields = []
        while not self.is_("}"):
            name = self.next()[1]
            self.expect("=")
            fields.append((name, self.term()))
            if self.is_(";"):
                self.next()
        return ("record", base, fields), self.next()[3]

    def is_constructor(self):
        if self.peek()[0] != "id":
            return False
        if self.peek()[1][0].isupper():
            return True
        return self.peek(1)[1] == "." and self.peek(1)[2] == self.peek()[3] and self.peek(2)[1][:1].isupper()

    def constructor(self):
        name = self.next()[1]
        while self.is_("."):
            self.next()
            name = self.next()[1]
        return name

    def pattern(self):
        if self.is_constructor():
            name, args = self.constructor(), []
            while self.peek()[0] in ("id", "num") or self.peek()[1] in ("(", "["):
                args.append(self.pattern_atom())
            found = ("constructor", name, args)
        else:
            found = self.pattern_atom()
        if self.is_("∷"):
            self.next()
            return ("cons", found, self.pattern())
        return found

    def pattern_atom(self):
        kind, text = self.peek()[:2]
        if text == "(":
            self.next()
            parts = [self.pattern()]
            while self.is_(","):
                self.next()
                parts.append(self.pattern())
            self.expect(")")
            return parts[0] if len(parts) == 1 else ("tuple", parts)
        if text == "[":
            self.next()
            self.expect("]")
            return ("nil",)
        if kind == "num":
            self.next()
            return ("literal", int(text))
        if self.is_constructor():
            return ("constructor", self.constructor(), [])
        if kind != "id":
            raise Unread(text)
        self.next()
        if text == "suc":
            return ("suc", self.pattern_atom())
        literals = {"true": True, "false": False, "zero": 0}
        return ("literal", literals[text]) if text in literals else ("var", text)


# ---- modules


class Module:
    def __init__(self):
        self.names, self.modules, self.clauses = {}, {}, {}


def lines_of(text):
    """Logical lines: a line that is indented goes on with the one before."""
    lines = []
    for line in text.split("\n"):
        line = re.sub(r"(^|\s)--.*$", "", line).rstrip()
        if line and line[0] in " \t)}" and lines:
            lines[-1] += " " + line.strip()
        elif line:
            lines.append(line)
    return lines


PASSED_OVER = re.compile(r"(pub )?(record|data|ruleset|mod|module)\b|(abbrev |unfoldable |pub |mutual )*[A-Za-z_0-9\-]+ :")


class Definitions:
    """The definitions of some files of specs/, ready to be called."""

    def __init__(self, crates_folder, files, words=()):
        """`files` are crate/File names; `words` stand for definitions that aren't read, as encodings."""
        self.library = {**LIBRARY, **dict(words)}
        self.modules, self.python, self.count = {}, {}, 0
        for name in ("Data", "Record", "Later", "Function", "force", "apply", "field"):
            self.python[name] = globals()[name]
        for file in files:
            crate, part = file.split("/")
            self.read(f"Rattle.{crate}.specs.{part}", os.path.join(crates_folder, crate, "specs", part + ".antt"))
        for module in self.modules:
            for name in self.modules[module].clauses:
                self.compile(module, name)

    def call(self, crate, part, name, *args):
        return force(self.python[self.python_name(f"Rattle.{crate}.specs.{part}", name)](*args))

    def read(self, name, path):
        module = self.modules[name] = Module()
        with open(path, encoding="utf-8") as file:
            lines = lines_of(file.read())
        for line in lines:
            if line.startswith(("use ", "pub use ")):
                self.read_use(module, line[line.index("use ") + 4 :].strip())
            elif not PASSED_OVER.match(line):
                self.read_clause(module, line)

    def read_use(self, module, text):
        listed = re.match(r"^(.*?)\.\{(.*)\}$", text)
        if listed:
            for item in filter(None, (i.strip() for i in listed.group(2).split(","))):
                source, _, name = item.partition(" as ")
                module.names[name or source] = (listed.group(1), source)
        else:
            source, _, name = text.partition(" as ")
            module.modules[name or source.split(".")[-1]] = source

    def read_clause(self, module, line):
        head = re.match(r"([A-Za-z_][A-Za-z0-9_\-]*)\b(.*)", line)
        if not head:
            return
        try:
            reader, patterns = Reader(head.group(2)), []
            while not reader.is_("="):
                patterns.append(reader.pattern_atom())
            reader.next()
            term = reader.term()
            if reader.peek() == Reader.END:
                module.clauses.setdefault(head.group(1), []).append((patterns, term))
        except Unread:
            pass

    # ---- names

    def python_name(self, module, name):
        return "d_" + re.sub(r"\W", "_", f"{module}.{name}")

    def found(self, source, name):
        """What a name of a module stands for: ('defined', module, name, arity), ('word', value) or ('constructor', name)."""
        module = self.modules.get(source)
        if module and name in module.clauses:
            return ("defined", source, name, len(module.clauses[name][0][0]))
        if module and name in module.names:
            return self.found(*module.names[name])
        if source.endswith(".FinMap") and name in MAPS:
            return ("word", f"map_{name}", MAPS[name])
        if source.endswith(".FinSet") and name in SETS:
            return ("word", f"set_{name}", SETS[name])
        if name[0].isupper():
            return ("constructor", name)
        return ("word", f"word_{name}", self.library.get(name))

    # ---- Python text

    def compile(self, module, name):
        clauses = self.modules[module].clauses[name]
        args = [f"a{i}" for i in range(len(clauses[0][0]))]
        lines = [f"def {self.python_name(module, name)}({', '.join(args)}):"]
        try:
            for patterns, term in clauses:
                bound, tests = {}, []
                for pattern, arg in zip(patterns, args):
                    self.match(pattern, arg, bound, tests)
                lines.append(f"  if {' and '.join(tests) or 'True'}: return {self.text(module, term, bound)}")
        except Unread:
            return
        lines.append(f"  raise LookupError({name!r})")
        exec(compile("\n".join(lines), f"{module}.{name}", "exec"), self.python)

    def match(self, pattern, value, bound, tests):
        kind = pattern[0]
        if kind == "var":
            bound[pattern[1]] = value
        elif kind == "literal":
            tests.append(f"force({value}) == {pattern[1]!r}")
        elif kind == "suc":
            tests.append(f"force({value}) > 0")
            self.match(pattern[1], f"(force({value}) - 1)", bound, tests)
        elif kind == "nil":
            tests.append(f"force({value}) == ()")
        elif kind == "cons":
            tests.append(f"len(force({value})) > 0")
            self.match(pattern[1], f"force({value})[0]", bound, tests)
            self.match(pattern[2], f"force({value})[1:]", bound, tests)
        elif kind == "constructor":
            tests.append(f"force({value}).name == {pattern[1]!r}")
            for i, part in enumerate(pattern[2]):
                self.match(part, f"force({value}).args[{i}]", bound, tests)
        else:
            for i, part in enumerate(pattern[1]):
                self.match(part, f"force({value})[{i}]", bound, tests)

    def reference(self, found):
        if found[0] == "constructor":
            return f"Data({found[1]!r})"
        if found[0] == "word":
            if found[2] is None:
                raise Unread(found[1])
            self.python[found[1]] = found[2]
            return found[1]
        name = self.python_name(found[1], found[2])
        return f"Function({found[3]}, {name})" if found[3] else f"force({name}())"

    def resolved(self, module, term, bound):
        """What a name, or a name of a module that is used under another one, stands for."""
        if term[0] == "name" and term[1] not in bound:
            return self.found(module, term[1])
        if term[0] == "field" and term[1][0] == "name" and term[1][1] not in bound:
            source = self.modules[module].modules.get(term[1][1])
            return self.found(source, term[2]) if source else None
        return None

    def fresh(self):
        self.count += 1
        return f"v{self.count}"

    def text(self, module, term, bound):
        """Python that gives the term's value."""
        of = lambda part: self.text(module, part, bound)
        kind = term[0]
        if kind == "num":
            return str(term[1])
        if kind == "nil":
            return "()"
        if kind == "name" and term[1] in bound:
            return f"force({bound[term[1]]})"
        found = self.resolved(module, term, bound)
        if found:
            return self.reference(found)
        if kind == "field":
            if term[2] == "eq" and term[1][0] == "field" and term[1][2] == "ghosts":
                return self.reference(("word", "word_same", SAME))
            return f"force(field({of(term[1])}, {term[2]!r}))"
        if kind == "tuple":
            return "(" + ", ".join(of(part) for part in term[1]) + ")"
        if kind == "op":
            return self.operation(term[1], of(term[2]), of(term[3]))
        if kind == "if":
            return f"({of(term[2])} if {of(term[1])} else {of(term[3])})"
        if kind == "record":
            names = tuple(name for name, _ in term[2])
            values = "(" + "".join(of(value) + ", " for _, value in term[2]) + ")"
            return f"Record({names!r}, {values})" if term[1] is None else f"{of(term[1])}.updated({names!r}, {values})"
        if kind == "lambda":
            names = [self.fresh() for _ in term[1]]
            return f"Function({len(names)}, lambda {', '.join(names)}: {self.text(module, term[2], {**bound, **dict(zip(term[1], names))})})"
        if kind == "let":
            name, inner = self.fresh(), dict(bound)
            self.match(term[1], name, inner, [])
            return f"(lambda {name}: {self.text(module, term[3], inner)})({self.argument(module, term[2], bound)})"
        return self.applied(module, term[1], term[2], bound)

    def operation(self, operator, left, right):
        if operator == "∷":
            return f"(({left},) + {right})"
        if operator == "-":
            return f"max(0, {left} - {right})"
        python = {"&&": "and", "||": "or", "++": "+", "/": "//", "^": "**"}.get(operator, operator)
        return f"({left} {python} {right})"

    def applied(self, module, function, args, bound):
        if function == ("name", "cond") and len(args) == 3:
            test, yes, no = (self.text(module, arg, bound) for arg in args)
            return f"({yes} if {test} else {no})"
        found = self.resolved(module, function, bound)
        if found and found[0] == "constructor":
            return f"Data({found[1]!r}, ({''.join(self.text(module, a, bound) + ', ' for a in args)}))"
        given = ", ".join(self.argument(module, arg, bound) for arg in args)
        if found and found[0] == "defined" and found[3] == len(args):
            return f"force({self.python_name(found[1], found[2])}({given}))"
        return f"apply({self.reference(found) if found else self.text(module, function, bound)}, {given})"

    def argument(self, module, term, bound):
        if term[0] == "name" and term[1] in bound:
            return bound[term[1]]
        text = self.text(module, term, bound)
        return text if term[0] in ("num", "nil", "lambda", "name") else f"Later(lambda: {text})"


def with_room(run):
    """Runs it with a stack that is deep enough for lists."""
    sys.setrecursionlimit(1_000_000)
    threading.stack_size(512 * 1024 * 1024)
    result = []
    thread = threading.Thread(target=lambda: result.append(run()))
    thread.start()
    thread.join()
    return result[0] if result else 1
