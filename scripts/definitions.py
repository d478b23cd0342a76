"""Definitions of specs/ as Python functions, clause by clause and in the same order, so that they can be run on cases
before any code or proof stands on them. Nothing is simplified on the way. By hand is only what the kit's own libraries
give, in PRIMITIVES below: lists, options, orders, finite maps, SHA-256 and the bytes of numbers. A definition that uses
another word of these wants a line there.

    import definitions
    quorum_of, = definitions.load("Rattle.pws_base.specs.Shapes", "quorum_of")
    quorum_of(1)                                        # 3

Values: numbers are int, Bool is bool, lists and pairs are tuples, a constructor with its arguments is a Data, a record is
a Record, a finite map or set is a Map, a function is a Function.

What can be read is the part of the language in which rules are written: clauses over constructors, lists, pairs and
numbers; records and their updates; `if`, `let`, `do` and lambdas; operators of OPERATORS. Types and relations are passed
over.

Where a definition takes too long as it stands, SHORTCUTS may have a function from the translated definition to one that
gives the same.
"""

import hashlib
import os
import re

TOP = os.path.dirname(os.path.dirname(os.path.abspath(__file__)))
CRATES = os.path.join(TOP, "crates")


# ---- values ---------------------------------------------------------------------------------------------------------
class Hashed:
    """What is equal by its parts, and keeps its hash."""

    __slots__ = ("hash",)

    def __hash__(self):
        if self.hash is None:
            self.hash = hash(self.parts())
        return self.hash

    def __eq__(self, other):
        if self is other or type(self) is not type(other):
            return self is other
        return (self.hash is None or other.hash is None or self.hash == other.hash) and self.same(other)


class Data(Hashed):
    """A constructor with its arguments."""

    __slots__ = ("tag", "args")

    def __init__(self, tag, *args):
        self.tag, self.args, self.hash = tag, args, None

    def parts(self):
        return (self.tag, self.args)

    def same(self, other):
        return self.tag == other.tag and self.args == other.args

    def __repr__(self):
        return "({})".format(" ".join([self.tag] + [show(x) for x in self.args])) if self.args else self.tag


class Record(Hashed):
    __slots__ = ("fields",)

    def __init__(self, fields):
        self.fields, self.hash = fields, None

    def parts(self):
        return tuple(sorted(self.fields.items(), key=lambda field: field[0]))

    def same(self, other):
        return self.fields == other.fields

    def __getitem__(self, name):
        return self.fields[name]

    def update(self, **new):
        lost = set(new) - set(self.fields)
        if lost:
            raise KeyError("no fields {} among {}".format(lost, list(self.fields)))
        return Record({**self.fields, **new})

    def __repr__(self):
        return "{{{}}}".format("; ".join("{} = {}".format(name, show(x)) for name, x in self.fields.items()))


class Map(Hashed):
    """A finite map; a set is one with nothing at each key."""

    __slots__ = ("items",)

    def __init__(self, items):
        self.items, self.hash = items, None

    def parts(self):
        return frozenset(self.items.items())

    def same(self, other):
        return self.items == other.items

    def __repr__(self):
        return "map{{{}}}".format(", ".join("{}: {}".format(show(key), show(x)) for key, x in self.items.items()))


class Function:
    """A function of some number of arguments, that may be given some of them."""

    __slots__ = ("count", "body", "given")

    def __init__(self, count, body, given=()):
        self.count, self.body, self.given = count, body, given

    def __call__(self, *args):
        args = self.given + args
        if len(args) == self.count:
            return self.body(*args)
        if len(args) < self.count:
            return Function(self.count, self.body, args)
        return self.body(*args[: self.count])(*args[self.count :])


def show(x):
    """A value in few words: digests by their first bytes, long lists cut."""
    if type(x) is tuple and len(x) == 32 and all(type(byte) is int for byte in x):
        return bytes(x).hex()[:8]
    if type(x) is tuple:
        return "[{}]".format(", ".join(map(show, x[:40])))
    return repr(x)


NONE = Data("None")
LESS, EQUAL, GREATER = Data("Less"), Data("Equal"), Data("Greater")


def some(x):
    return Data("Some", x)


# ---- what the kit's libraries give ----------------------------------------------------------------------------------
PRIMITIVES = {}  # from a word to the count of its arguments and a Python function
SETS = {}  # the same for the words of finite sets


def word(count, name=None, into=PRIMITIVES):
    def take(body):
        into[name or body.__name__.rstrip("_")] = (count, body)
        return body

    return take


@word(3)
def fold(step, start, xs):
    for x in xs:
        start = step(start, x)
    return start


@word(2)
def find(test, xs):
    for x in xs:
        if test(x):
            return some(x)
    return NONE


@word(3)
def slice_set(xs, place, x):
    return xs[:place] + (x,) + xs[place + 1 :] if place < len(xs) else xs


@word(2)
def nat_cmp(a, b):
    return LESS if a < b else GREATER if a > b else EQUAL


@word(3)
def slice_cmp(order, xs, ys):
    for x, y in zip(xs, ys):
        result = order(x, y)
        if result != EQUAL:
            return result
    return nat_cmp(len(xs), len(ys))


@word(1)
def entries(m):
    # by rising keys, which are numbers or lists of numbers wherever the order of entries tells
    in_order = all(type(key) in (int, tuple) for key in m.items)
    return tuple(sorted(m.items.items(), key=lambda entry: entry[0]) if in_order else m.items.items())


DIGESTS = {}


@word(1)
def sha256(text):
    if text not in DIGESTS:
        if len(DIGESTS) > 100_000:
            DIGESTS.clear()
        DIGESTS[text] = tuple(hashlib.sha256(bytes(text)).digest())
    return DIGESTS[text]


def chacha_block(key, rounds, block, stream):
    """The sixteen words of a block of ChaCha's key stream; the block and the stream are numbers of 64 bits."""
    start = (0x61707865, 0x3320646E, 0x79622D32, 0x6B206574) + key
    start += (block % 2**32, block >> 32, stream % 2**32, stream >> 32)
    x = list(start)

    def quarter(a, b, c, d):
        for one, other, third, turn in (a, b, d, 16), (c, d, b, 12), (a, b, d, 8), (c, d, b, 7):
            x[one] = (x[one] + x[other]) % 2**32
            mixed = x[third] ^ x[one]
            x[third] = (mixed << turn | mixed >> 32 - turn) % 2**32

    for _ in range(rounds):
        for i in range(4):
            quarter(i, i + 4, i + 8, i + 12)
        for i in range(4):
            quarter(i, (i + 1) % 4 + 4, (i + 2) % 4 + 8, (i + 3) % 4 + 12)
    return [(one + other) % 2**32 for one, other in zip(x, start)]


@word(4)
def word_at(rounds, key, stream, place):
    return chacha_block(key, rounds, place // 16, stream)[place % 16]


@word(1)
def of_seed(seed):
    words = tuple(int.from_bytes(bytes(seed[i : i + 4]), "little") for i in range(0, 32, 4))
    return Record({"key": words, "stream": 0, "word_pos": 0})


def without(m, key):
    return Map({k: x for k, x in m.items.items() if k != key})


for name, count, body in [
    # lists
    ("map", 2, lambda f, xs: tuple(f(x) for x in xs)),
    ("filter", 2, lambda test, xs: tuple(x for x in xs if test(x))),
    ("list_any", 2, lambda test, xs: any(test(x) for x in xs)),
    ("list_all", 2, lambda test, xs: all(test(x) for x in xs)),
    ("filter_map", 2, lambda f, xs: tuple(y.args[0] for y in map(f, xs) if y.tag == "Some")),
    ("flat_map", 2, lambda f, xs: tuple(y for x in xs for y in f(x))),
    ("count_by", 2, lambda test, xs: sum(1 for x in xs if test(x))),
    ("sum_by", 2, lambda f, xs: sum(f(x) for x in xs)),
    ("sum", 1, sum),
    ("range_with_len", 2, lambda first, count: tuple(range(first, first + count))),
    ("length", 1, len),
    ("take", 2, lambda count, xs: xs[:count]),
    ("drop", 2, lambda count, xs: xs[count:]),
    ("replicate", 2, lambda count, x: (x,) * count),
    ("slice_get", 2, lambda xs, place: some(xs[place]) if place < len(xs) else NONE),
    ("slice_index", 2, lambda xs, place: xs[place] if place < len(xs) else 0),
    ("slice_index_or", 3, lambda xs, place, none: xs[place] if place < len(xs) else none),
    ("bytes_eq", 2, lambda a, b: a == b),
    ("pointwise", 3, lambda same, xs, ys: len(xs) == len(ys) and all(same(x, y) for x, y in zip(xs, ys))),
    ("enumerate_from", 2, lambda first, xs: tuple(enumerate(xs, first))),
    ("cond", 3, lambda test, one, other: one if test else other),
    # options
    ("is_some", 1, lambda o: o.tag == "Some"),
    ("unwrap_or", 2, lambda o, none: o.args[0] if o.tag == "Some" else none),
    ("option_or", 2, lambda o, other: o if o.tag == "Some" else other),
    ("option_map", 2, lambda f, o: some(f(o.args[0])) if o.tag == "Some" else o),
    ("option_map_or", 3, lambda f, o, none: f(o.args[0]) if o.tag == "Some" else none),
    ("option_and_then", 2, lambda f, o: f(o.args[0]) if o.tag == "Some" else o),
    ("option_to_list", 1, lambda o: o.args),
    # numbers, truth values and orders
    ("not", 1, lambda b: not b),
    ("min", 2, min),
    ("max", 2, max),
    ("nat_lt", 2, lambda a, b: a < b),
    ("nat_le", 2, lambda a, b: a <= b),
    ("is_lt", 1, lambda o: o.tag == "Less"),
    ("is_le", 1, lambda o: o.tag != "Greater"),
    ("ordering_then", 2, lambda a, b: b if a == EQUAL else a),
    # finite maps
    ("empty", 0, lambda: Map({})),
    ("get", 2, lambda m, key: some(m.items[key]) if key in m.items else NONE),
    ("contains_key", 2, lambda m, key: key in m.items),
    ("insert", 3, lambda m, key, x: Map({**m.items, key: x})),
    ("remove", 2, without),
    ("retain_keys", 2, lambda m, test: Map({key: x for key, x in m.items.items() if test(key)})),
    ("values", 1, lambda m: tuple(m.items.values())),
    ("len", 1, lambda m: len(m.items)),
    # texts, and the bytes of numbers, high byte first
    ("codes", 1, lambda text: text),
    ("decimal", 1, lambda n: tuple(str(n).encode())),
    ("encode_lower", 1, lambda text: tuple(bytes(text).hex().encode())),
    ("bit_xor", 2, lambda a, b: a ^ b),
    ("w8", 0, lambda: 1),
    ("w32", 0, lambda: 4),
    ("w64", 0, lambda: 8),
    ("from_be_bytes", 2, lambda width, text: int.from_bytes(bytes(text), "big")),
    ("u16_text", 1, lambda n: tuple(n.to_bytes(2, "big"))),
    ("u32_text", 1, lambda n: tuple(n.to_bytes(4, "big"))),
    ("u64_text", 1, lambda n: tuple(n.to_bytes(8, "big"))),
    ("sized_text", 1, lambda text: tuple(len(text).to_bytes(4, "big")) + text),
]:
    word(count, name)(body)

for name, count, body in [
    ("empty", 0, lambda: Map({})),
    ("contains", 2, lambda s, key: key in s.items),
    ("insert", 2, lambda s, key: Map({**s.items, key: ()})),
    ("len", 1, lambda s: len(s.items)),
    ("retain", 2, lambda s, test: Map({key: () for key in s.items if test(key)})),
]:
    word(count, name, SETS)(body)

SHORTCUTS = {}  # from a path and a name, see above

LIBRARY_CONSTRUCTORS = {"None": 0, "Some": 1, "Ok": 1, "Err": 1, "Less": 0, "Equal": 0, "Greater": 0}
PLAIN = {"true": "True", "false": "False", "[]": "()", "zero": "0", "suc": None}
LIBRARIES = ("Rattle.std.", "Rattle.sha2.", "Rattle.hex.", "Rattle.rand_chacha.", "Rattle.core.", "Rattle.pws_base.specs.Texts")


# ---- reading --------------------------------------------------------------------------------------------------------
TOKEN = re.compile(r'\s+|"[^"]*"|[(){};,]|\.|[^\s(){}.;,]+')
OPERATORS = {
    ">>=": (10, "left"), "||": (20, "left"), "&&": (30, "left"), "==": (40, "none"), "∷": (50, "right"), "++": (50, "right"),
    "+": (60, "left"), "-": (60, "left"), "*": (70, "left"), "%": (70, "left"), "^": (80, "right"),
}
STEP = "⏎"  # put before each line of a `do` but the first
STOPS = {STEP, ")", "}", ";", ",", "then", "else", "in", "|", "↦", "]", "="}


def tokens(text):
    """The words of a text, each with whether it is joined to the one before."""
    found, joined = [], False
    for match in TOKEN.finditer(text):
        if match.group().isspace():
            joined = False
        else:
            found.append((match.group(), joined))
            joined = True
    return found


class Parser:
    """Reads one expression of a clause into a tree: tuples whose first item names the kind."""

    def __init__(self, text):
        self.words = tokens(text)
        self.place = 0

    def peek(self):
        return self.words[self.place][0] if self.place < len(self.words) else None

    def next(self):
        self.place += 1
        return self.words[self.place - 1][0]

    def want(self, wanted):
        got = self.next()
        if got != wanted:
            raise SyntaxError("wanted {}, got {} in {}".format(wanted, got, " ".join(w for w, _ in self.words)))

    def expression(self, least=0):
        left = self.term()
        while self.peek() in OPERATORS and OPERATORS[self.peek()][0] >= least:
            operator = self.next()
            strength, side = OPERATORS[operator]
            left = ("operator", operator, left, self.expression(strength if side == "right" else strength + 1))
        return left

    def term(self):
        if self.peek() == "λ":
            return self.function()
        if self.peek() == "let":
            self.next()
            name = self.next()
            self.want("=")
            value = self.expression()
            self.want("in")
            return ("let", name, value, self.expression())
        if self.peek() == "do":
            self.next()
            return self.steps()
        if self.peek() == "if":
            self.next()
            test = self.expression()
            self.want("then")
            one = self.expression()
            self.want("else")
            return ("if", test, one, self.expression())
        return self.application()

    def steps(self):
        """The lines of a `do`: `name ← value`, and an expression at the end."""
        if self.place + 1 < len(self.words) and self.words[self.place + 1][0] == "←":
            name = self.next()
            self.want("←")
            value = self.expression()
            self.want(STEP)
            return ("operator", ">>=", value, ("function", [name], self.steps()))
        return self.expression()

    def function(self):
        self.want("λ")
        names = []
        while self.peek() != ".":
            if self.peek() == "(":  # (x : T)
                self.next()
                names.append(self.next())
                while self.next() != ")":
                    pass
            else:
                names.append(self.next())
        self.want(".")
        return ("function", names, self.expression())

    def application(self):
        head, args = self.atom(), []
        while not (self.peek() is None or self.peek() in STOPS or self.peek() in OPERATORS):
            if self.peek() == "λ":
                args.append(self.function())
                break
            if self.peek() == "{":
                raise SyntaxError("an implicit argument")
            args.append(self.atom())
        return ("apply", head, args) if args else head

    def atom(self):
        first = self.next()
        if first == "(":
            parts = [self.expression()]
            while self.peek() == ",":
                self.next()
                parts.append(self.expression())
            self.want(")")
            tree = parts[0] if len(parts) == 1 else ("tuple", parts)
        elif first == "record":
            tree = self.record()
        elif first[0].isdigit():
            tree = ("number", int(first, 0))
        elif first[0] == '"':
            tree = ("text", first[1:-1].replace("\\n", "\n"))
        else:
            tree = ("name", first)
        while self.place + 1 < len(self.words) and self.words[self.place] == (".", True) and self.words[self.place + 1][1]:
            self.next()
            tree = ("dot", tree, self.next())
        return tree

    def record(self):
        base = None if self.peek() == "{" else self.atom()
        self.want("{")
        fields = []
        while self.peek() != "}":
            name = self.next()
            self.want("=")
            fields.append((name, self.expression()))
            if self.peek() == ";":
                self.next()
        self.want("}")
        return ("record", base, fields)


def declarations(text):
    """The declarations of a file: each line that begins at the left, with the indented ones below it."""
    found = []
    for line in text.split("\n"):
        line = re.sub(r"(^|\s)--(\s.*)?$", "", line)
        if not line.strip():
            continue
        if (line[0].isspace() or line[0] == "}") and found:
            found[-1] += "\n" + line
        else:
            found.append(line)
    return found


def with_steps(text):
    """A declaration with STEP before each line of a `do` but the first."""
    lines, found, depths = text.split("\n"), [], []
    for i, line in enumerate(lines):
        depth = len(line) - len(line.lstrip())
        depths = [d for d in depths if d <= depth]
        found.append(STEP + line if depth in depths else line)
        if re.search(r"\bdo$", line) and i + 1 < len(lines):
            depths.append(len(lines[i + 1]) - len(lines[i + 1].lstrip()))
            lines[i + 1] = " " + lines[i + 1]
    return "\n".join(found)


def text_of(*parts):
    with open(os.path.join(CRATES, *parts), encoding="utf-8") as file:
        return file.read()


def arity_of(kind):
    """How many arguments a constructor of this type takes."""
    depth = count = 0
    for part in re.findall(r"[()]|→|[^\s()]+", kind):
        depth += (part == "(") - (part == ")")
        count += part == "→" and depth == 0
    return count


def code_enum(path):
    """From each variant of an enum of the code to how many arguments it takes: Rattle.CRATE.specs.declared.MODULE.ENUM."""
    _, crate, _, _, *modules, name = path.split(".")
    body = re.search(r"pub(?:\(crate\))? enum {} \{{\n(.*?)\n\}}".format(name), text_of(crate, "src", *modules[:-1], modules[-1] + ".rt"), re.S)
    body = re.sub(r"^\s*(//|#).*$", "", body.group(1), flags=re.M)
    counts = {}
    for variant, fields in re.findall(r"(\w+)\s*(\([^)]*\)|\{[^}]*\})?\s*(?:,|$)", body):
        counts[variant] = len([field for field in fields.strip("(){}").split(",") if field.strip()])
    return counts


class Module:
    """A file of specs/: what its names stand for, and the clauses of its definitions."""

    def __init__(self, path):
        _, crate, _, *rest = path.split(".")
        self.path = path  # Rattle.CRATE.specs.NAME
        self.names = {}  # to ("definition",), ("constructor", arity), ("use", path, name) or ("module", path)
        self.clauses = {}
        for declaration in declarations(text_of(crate, "specs", *rest[:-1], rest[-1] + ".antt")):
            self.declare(declaration)

    def declare(self, text):
        words = text.split()
        if words[0] == "use" or words[:2] == ["pub", "use"]:
            self.use(re.sub(r"^(pub )?use\s+", "", text.strip()))
        elif words[:2] == ["pub", "data"]:
            for line in text.split("\n")[1:]:
                name, _, kind = line.strip().partition(" : ")
                self.names[name] = ("constructor", arity_of(kind))
        elif words[0] not in ("infixl", "infixr", "infix", "module", "unfolding") and words[:2] not in (["pub", "record"], ["pub", "mod"]):
            self.clause(re.sub(r"^((abbrev|unfoldable|pub|pattern)\s+)+", "", text))

    def clause(self, text):
        infix = re.match(r"(\([^()]*\)|\S+) (\S+) (\S+) = ", text)
        if infix and infix.group(2) in OPERATORS:  # a clause of an operator, turned round
            text = "◌{1}◌ {0} {2} = ".format(*infix.groups()) + text[infix.end() :]
        words = text.split()
        is_signature = words[1] == ":" or (len(words) > 2 and words[1].startswith("{") and ":" in text.partition("}")[0])
        if not is_signature:
            self.names[words[0]] = ("definition",)
            self.clauses.setdefault(words[0], []).append(with_steps(text))

    def use(self, text):
        path, _, items, alias = re.match(r"^([^\s{]+?)(\.\{(.*)\})?(?:\s+as\s+(\S+))?$", text, re.S).groups()
        if items is None:
            self.names[alias or path.split(".")[-1]] = ("module", path)
            return
        for item in items.split(","):
            item, _, name = item.strip().partition(" as ")
            self.names[name or item] = ("use", path, item)


MODULES = {}


def module(path):
    if path not in MODULES:
        MODULES[path] = Module(path)
    return MODULES[path]


# ---- to Python ------------------------------------------------------------------------------------------------------
def variable(name):
    return "v_" + "".join(c if c.isalnum() and c.isascii() or c == "_" else "_{:x}_".format(ord(c)) for c in name)


class Translation:
    """All definitions that were asked for, with those that they use, as Python functions."""

    def __init__(self):
        self.names = {"Data": Data, "Record": Record, "Function": Function, "NONE": NONE}
        self.done = {}  # from (path, name) to what it stands for

    def resolve(self, path, name):
        """What a name of a path stands for: ("constructor", name, arity) or ("function", its Python name, arity)."""
        if path.endswith(".TheVariants"):
            return ("constructor", name, self.variants(path)[name])
        if path == "Rattle.std.specs.FinSet":
            return self.library("set_" + name, *SETS[name])
        if path.startswith(LIBRARIES):
            if name in LIBRARY_CONSTRUCTORS:
                return ("constructor", name, LIBRARY_CONSTRUCTORS[name])
            if name in PLAIN:
                return ("constructor", name, 1 if name == "suc" else 0)
            if name not in PRIMITIVES:
                raise KeyError("nothing stands here for {} of {}".format(name, path))
            return self.library(name, *PRIMITIVES[name])
        what = module(path).names.get(name)
        if what is None:
            raise KeyError("{} has no {}".format(path, name))
        if what[0] == "constructor":
            return ("constructor", name, what[1])
        if what[0] == "use":
            return self.resolve(what[1], what[2])
        return self.define(path, name)

    @staticmethod
    def variants(path):
        path = path[: -len(".TheVariants")]
        if path.startswith(LIBRARIES):
            return LIBRARY_CONSTRUCTORS
        if path not in MODULES:
            MODULES[path] = code_enum(path)
        return MODULES[path]

    def library(self, name, count, body):
        self.names["library_" + name] = body
        return ("function", "library_" + name, count)

    def define(self, path, name):
        if (path, name) in self.done:
            return self.done[path, name]
        clauses = [(self.patterns(left), right) for left, right in map(self.sides, module(path).clauses[name])]
        count = len(clauses[0][0])
        full = "_".join([path.split(".")[1], path.split(".")[-1], variable(name)])
        self.done[path, name] = ("function", full, count)
        lines = ["def {}({}):".format(full, ", ".join("a{}".format(i) for i in range(count)))]
        for patterns, right in clauses:
            lines += self.clause(path, name, count, patterns, right)
        lines.append("    raise AssertionError('no clause of {} fits')".format(full))
        exec(compile("\n".join(lines), full, "exec"), self.names)
        if (path, name) in SHORTCUTS:
            self.names[full] = SHORTCUTS[path, name](self.names[full])
        return self.done[path, name]

    def clause(self, path, name, count, patterns, right):
        if len(patterns) != count:
            raise SyntaxError("{} of {} has clauses of two lengths".format(name, path))
        tests, bound, scope = [], [], {}
        for i, pattern in enumerate(patterns):
            self.match(path, pattern, "a{}".format(i), tests, bound, scope)
        parser = Parser(right)
        tree = parser.expression()
        if parser.peek() is not None:
            raise SyntaxError("{} of {}: {} is left over".format(name, path, parser.peek()))
        pad = "    " if not tests else "        "
        lines = ["    if {}:".format(" and ".join(tests))] if tests else []
        return lines + [pad + "{} = {}".format(*pair) for pair in bound] + [pad + "return " + self.code(path, tree, scope)]

    @staticmethod
    def sides(clause):
        """The two sides of a clause, at its outermost `=`."""
        depth = 0
        for match in re.finditer(r"[(){}]|(?<=\s)=(?=\s|$)", clause):
            if match.group() == "=" and depth == 0:
                return clause[: match.start()], clause[match.end() :]
            depth += (match.group() in "({") - (match.group() in ")}")
        raise SyntaxError(clause)

    @staticmethod
    def patterns(left):
        parser = Parser(re.sub(r"\{[^}]*\}", "", left))
        parser.next()
        found = []
        while parser.peek() is not None:
            found.append(parser.atom())
        return found

    @staticmethod
    def constructor(path, head):
        """The constructor that the head of a pattern names, or None where it is a variable."""
        if head[0] == "dot":
            return head[2]
        name = head[1]
        if name in LIBRARY_CONSTRUCTORS or name in PLAIN:
            return name
        what = module(path).names.get(name, ("",))
        if what[0] == "constructor":
            return name
        if what[0] == "use" and not what[1].startswith(LIBRARIES):
            if what[1].endswith(".TheVariants"):
                return name
            if ".declared." not in what[1] and module(what[1]).names.get(what[2], ("",))[0] == "constructor":
                return name
        return None

    def match(self, path, pattern, at, tests, bound, scope):
        """The tests under which a value fits a pattern, and the names that it gives to its parts."""
        if pattern[0] == "operator" and pattern[1] == "∷":
            tests.append("{} != ()".format(at))
            self.match(path, pattern[2], at + "[0]", tests, bound, scope)
            self.match(path, pattern[3], at + "[1:]", tests, bound, scope)
            return
        if pattern[0] == "tuple":
            for i, part in enumerate(pattern[1]):
                self.match(path, part, "{}[{}]".format(at, i), tests, bound, scope)
            return
        head, args = (pattern[1], pattern[2]) if pattern[0] == "apply" else (pattern, [])
        name = self.constructor(path, head)
        if name is None:
            if head[1] != "_":
                scope[head[1]] = variable(head[1])
                bound.append((variable(head[1]), at))
        elif name == "suc":
            tests.append("{} > 0".format(at))
            self.match(path, args[0], "({} - 1)".format(at), tests, bound, scope)
        elif name in PLAIN:
            tests.append({"true": "{}", "false": "not {}", "[]": "{} == ()", "zero": "{} == 0"}[name].format(at))
        else:
            tests.append("{}.tag == {!r}".format(at, name))
            for i, part in enumerate(args):
                self.match(path, part, "{}.args[{}]".format(at, i), tests, bound, scope)

    def name(self, path, name, scope):
        if name in scope:
            return ("local", scope[name])
        if name in PLAIN:
            return ("constructor", name, 1 if name == "suc" else 0)
        what = module(path).names.get(name)
        if what is None:
            raise KeyError("{}: nothing is named {}".format(path, name))
        if what[0] == "module":
            return what
        return self.resolve(path, name)

    def reference(self, path, tree, scope):
        """What the head of an expression stands for, or None where it is no name."""
        if tree[0] == "name":
            return self.name(path, tree[1], scope)
        if tree[0] == "dot" and tree[1][0] == "name" and tree[1][1] not in scope:
            what = module(path).names.get(tree[1][1], ("",))
            if what[0] == "module":
                return self.resolve(what[1], tree[2])
        return None

    def code(self, path, tree, scope):
        """The Python expression of a tree."""
        def part(x):
            return self.code(path, x, scope)

        kind = tree[0]
        if kind == "number":
            return str(tree[1])
        if kind == "tuple":
            return "({},)".format(", ".join(map(part, tree[1])))
        if kind == "text":
            return repr(tuple(map(ord, tree[1])))
        if kind == "operator" and tree[1] == ">>=":
            return self.application(path, ("apply", ("name", "◌>>=◌"), tree[2:]), scope, [part(tree[2]), part(tree[3])])
        if kind == "operator":
            return self.operation(tree[1], part(tree[2]), part(tree[3]))
        if kind == "if":
            return "({} if {} else {})".format(part(tree[2]), part(tree[1]), part(tree[3]))
        if kind == "let":
            inner = self.code(path, tree[3], {**scope, tree[1]: variable(tree[1])})
            return "(lambda {}: {})({})".format(variable(tree[1]), inner, part(tree[2]))
        if kind == "function":
            names = [name if name != "_" else "_{}".format(i) for i, name in enumerate(tree[1])]
            inner = self.code(path, tree[2], {**scope, **{name: variable(name) for name in names}})
            return "Function({}, lambda {}: {})".format(len(names), ", ".join(map(variable, names)), inner)
        if kind == "record":
            fields = ", ".join("{}={}".format(name, part(x)) for name, x in tree[2])
            return "Record(dict({}))".format(fields) if tree[1] is None else "{}.update({})".format(part(tree[1]), fields)
        if kind == "apply":
            return self.application(path, tree, scope, [part(x) for x in tree[2]])
        what = self.reference(path, tree, scope)
        if what is None:  # a field, or a part of a pair
            return "{}[{}]".format(part(tree[1]), tree[2] if tree[2].isdigit() else repr(tree[2]))
        return self.alone(what)

    @staticmethod
    def operation(operator, a, b):
        if operator == "∷":
            return "(({},) + {})".format(a, b)
        if operator == "-":
            return "max({} - {}, 0)".format(a, b)
        python = {"&&": "and", "||": "or", "^": "**", "++": "+"}.get(operator, operator)
        return "({} {} {})".format(a, python, b)

    def alone(self, what):
        if what[0] == "local":
            return what[1]
        if what[0] == "constructor":
            return self.constructed(what, [])
        return what[1] + "()" if what[2] == 0 else "Function({}, {})".format(what[2], what[1])

    def application(self, path, tree, scope, args):
        what = self.reference(path, tree[1], scope)
        if what is None:
            return "{}({})".format(self.code(path, tree[1], scope), ", ".join(args))
        if what[0] == "constructor":
            return self.constructed(what, args)
        if what[0] == "local":
            return "{}({})".format(what[1], ", ".join(args))
        _, name, count = what
        if name == "library_option_or" and len(args) == 2:  # the second is computed only where it is wanted
            return '(lambda o: o if o.tag == "Some" else {})({})'.format(args[1], args[0])
        if len(args) < count:
            return "Function({}, {}, ({},))".format(count, name, ", ".join(args))
        called = "{}({})".format(name, ", ".join(args[:count]))
        return called if len(args) == count else "{}({})".format(called, ", ".join(args[count:]))

    @staticmethod
    def constructed(what, args):
        _, name, count = what
        if name == "suc":
            return "({} + 1)".format(args[0])
        if name in PLAIN:
            return PLAIN[name]
        if name == "None":
            return "NONE"
        more = ["c{}".format(i) for i in range(count - len(args))]
        made = "Data({})".format(", ".join([repr(name)] + args + more))
        return "Function({}, lambda {}: {})".format(len(more), ", ".join(more), made) if more else made


TRANSLATION = Translation()


def load(path, *names):
    """The Python functions of these definitions of a file of specs/. One without arguments is a function of none."""
    return [TRANSLATION.names[TRANSLATION.resolve(path, name)[1]] for name in names]
