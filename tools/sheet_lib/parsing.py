"""A type from its text, and the sheet that holds it; texts token by token."""
import re

from .nodes import ATTR_SET, BOTTOM, BYTES, INTERSECTION, LAMBDA, LIST, MEMBERS, NAMED, NEG, NEW, NODES, PRIMITIVE, PRIMITIVES
from .nodes import SEPARATORS, TOP, TY_VAR, UNION, UNKNOWN, Refused, head, need, run
from .texts import RESERVED, VARIABLE, is_type

NAME = r""""(?:[^"\\]|\\.)*"|[A-Za-z_](?:[A-Za-z0-9_']|-(?!>))*"""
TOKEN = re.compile(rf"->|\.\.\.|[][(){{}}|&~,:?]|{NAME}", re.S)
DEFINITION = re.compile(rf"\s*({NAME})\s*(=|\Z)", re.S)
SPACE = re.compile(r"\s*")
ESCAPE = re.compile(r"\\.|\$[${]", re.S)  # in a string; `$$` is taken whole, since a `{` behind it begins nothing
DEEPEST = 16384  # four times what a sheet can hold


def name_of(token, place):
    """The name that a word or a string gives, by the manual."""
    def meant(found):
        piece = found.group()
        need(piece != "${", f"in {shown(token)} ${{ begins an interpolation, which no name has; its two bytes are written \\${{", place)
        need(piece not in ("\\n", "\\r", "\\t"), f"in {shown(token)} {piece} is a control character, which no name has", place, 1)
        return piece if piece == "$$" else piece[-1]

    if token.startswith('"'):
        return ESCAPE.sub(meant, token[1:-1])
    need(token not in RESERVED, f'the manual reserves {token!r}; as a name it stands in quotes: "{token}"', place)
    return token


def is_name(token):
    return token[:1] == '"' or token[:1].isalpha() or token[:1] == "_"


def shown(token):
    """A token in a message: on one line, and not a long one."""
    short = token if len(token) <= 40 else token[:39] + "…"
    if token.startswith('"') and short.isprintable():
        return short
    return repr(short) if token else "the end"


def variable(word, where):
    """The index of a variable, from its text."""
    right = len(word) < 12 and word[1:] != "0"
    index = ord(word[0]) - 97 + 26 * int(word[1:] or 0) if right else UNKNOWN
    need(index < UNKNOWN, f"no variable has the text {shown(word)}", where)
    return index


class Tree:
    """Types as they were written, equal ones once. Under a type's number stand its kind, children and data, and its place."""

    def __init__(self):
        self.types, self.places, self.numbers = [], [], {}
        self.names, self.behind = set(), {}

    def add(self, number, place, children=(), data=None):
        written = (number, tuple(children), data)
        if written not in self.numbers:
            self.numbers[written] = len(self.types)
            self.types.append(written)
            self.places.append(place)
        return self.numbers[written]

    def name(self, token, place):
        """A name that the table must hold."""
        name = name_of(token, place)
        if name not in self.names:
            coded = name.encode("utf-8", "surrogateescape")
            need(1 <= len(coded) <= 64, f"{shown(token)} can't be a name: it has {len(coded)} bytes", place, 1)
            for byte in coded:
                need(32 <= byte <= 126, f"{shown(token)} can't be a name: it has a byte {byte}", place, 1)
            need(len(self.names) < NEW.names, "a 4,097th name", place, 1)
            self.names.add(name)
        return name


class Tokens:
    """A text token by token. `SPACE` and `TOKEN` are the language's own, and so is what `unread` says of anything else."""

    def __init__(self, text, source, at=0):
        self.text, self.source, self.depth = text, source, 0
        self.go_on(at)

    def here(self):
        return f"{self.source}, column {self.at + 1}"

    def go_on(self, at):
        """To the next token, an empty one at the end."""
        self.at = self.SPACE.match(self.text, at).end()
        self.found = self.TOKEN.match(self.text, self.at)
        if not self.found and self.at < len(self.text):
            raise Refused(self.unread(), self.here())
        self.token, self.end = (self.found.group(), self.found.end()) if self.found else ("", self.at)

    def take(self, *wanted):
        token = self.token
        if wanted and token not in wanted:
            raise Refused(f"wanted {' or '.join(map(repr, wanted))}, met {shown(token)}", self.here())
        self.go_on(self.end)
        return token


class Parser(Tokens):
    """One type from its text. Functions that meet types within types are generators, for `run`."""
    SPACE, TOKEN = SPACE, TOKEN

    def __init__(self, tree, text, source, at=0):
        super().__init__(text, source, at)
        self.tree, self.before = tree, len(tree.types)
        self.closed = None  # the last type that stood in parentheses, and where they ended

    def unread(self):
        met = self.text[self.at]
        return "no quote ends this string" if met == '"' else f"no type goes on with {shown(met)}"

    def add(self, number, place, children=(), data=None):
        found = self.tree.add(number, place, children, data)
        need(found - self.before < NODES, "a 4,097th type within this text", place, 7)
        return found

    def whole(self):
        found = run(self.arrow())
        need(self.token == "", f"the type ends before this: {shown(self.token)}", self.here())
        return found

    def arrow(self):
        place = self.here()
        need(self.depth < DEEPEST, f"types stand in types over {DEEPEST:,} deep", place)
        self.depth += 1
        found = yield self.members(UNION)
        if self.token == "->":
            bare = self.tree.types[found][0] in SEPARATORS and self.closed != (found, self.at)
            need(not bare, "a list as a param stands in parentheses", place)
            self.take()
            found = self.add(LAMBDA, place, [found, (yield self.arrow())])
        self.depth -= 1
        return found

    def members(self, number):
        place, apart = self.here(), SEPARATORS[number]
        alone = self.token == apart
        found = []
        while not found or self.token == apart and not alone:
            if found or alone:
                self.take()
            need(len(found) < MEMBERS, "a 65th member", self.here(), 3)
            found.append((yield self.members(INTERSECTION) if number == UNION else self.prefixed()))
        return found[0] if len(found) == 1 and not alone else self.add(number, place, found)

    def prefixed(self):
        places = []
        while self.token == "~":
            need(len(places) < NODES, "a 4,097th type within this text", self.here(), 7)
            places.append(self.here())
            self.take()
        inner = yield self.atom()
        for place in reversed(places):
            inner = self.add(NEG, place, [inner])
        return inner

    def atom(self):
        place, token = self.here(), self.take()
        if token == "(":
            inner = yield self.arrow()
            self.take(")")
            self.closed = (inner, self.at)
            return inner
        if token == "[":
            inner = yield self.arrow()
            self.take("]")
            return self.add(LIST, place, [inner])
        if token == "{":
            return (yield self.fields(place))
        if token == "?":
            return self.add(TY_VAR, place, data=UNKNOWN)
        need(is_name(token), f"wanted a type, met {shown(token)}", place)
        return self.word(token, place)

    def word(self, token, place):
        name = name_of(token, place)
        if token.startswith('"') or name in self.tree.behind and not is_type(name):
            need(name in self.tree.behind, f"no NAME=TYPE before this for {shown(token)}", place)
            return self.add(NAMED, place, [self.tree.behind[name]], name)
        if token in ("never", "any"):
            return self.add(BOTTOM if token == "never" else TOP, place)
        if token in PRIMITIVES:
            return self.add(PRIMITIVE, place, data=PRIMITIVES.index(token))
        need(VARIABLE.match(token), f"neither a type nor a name that NAME=TYPE gives before this: {shown(token)}", place)
        return self.add(TY_VAR, place, data=variable(token, place))

    def fields(self, place):
        fields, dynamic, is_open = {}, [], False
        while self.token != "}":
            need(not is_open, "... stands last", self.here())
            is_open = self.token == "..."
            if is_open:
                self.without_mark()
            elif self.token == "_":
                need(not dynamic, "_ stands here for the second time", self.here())
                self.without_mark()
                self.take(":")
                dynamic.append((yield self.arrow()))
            else:
                need(not dynamic, "_ stands behind the fields", self.here())
                need(len(fields) < MEMBERS, "a 65th field", self.here(), 3)
                name = self.field_name(fields)
                fields[name] = self.colon(), (yield self.arrow())
            if self.token != "}":
                self.take(",")
        self.take()
        rising = sorted(fields)
        data = tuple((name, fields[name][0]) for name in rising), len(dynamic), is_open
        return self.add(ATTR_SET, place, [fields[name][1] for name in rising] + dynamic, data)

    def field_name(self, before):
        place, token = self.here(), self.take()
        need(is_name(token), f"wanted a field's name, _ or ..., met {shown(token)}", place)
        name = self.tree.name(token, place)
        need(name not in before, f"the field {shown(token)} is given twice", place)
        return name

    def without_mark(self):
        """`_` or `...`, which have no name that could be optional."""
        token = self.take()
        need(self.token != "?", f"{token} can't be optional: ? stands on a field that has a name", self.here())

    def colon(self):
        """Whether the field before it is optional."""
        optional = self.take("?", ":") == "?"
        if optional:
            self.take(":")
        return optional


def define(tree, text, source):
    """NAME=TYPE, or NAME alone. The type may use names that were given before."""
    found = DEFINITION.match(text)
    need(found, "wanted NAME=TYPE or NAME, a name that is no identifier in quotes", f"{source}, column 1")
    name = tree.name(found.group(1), f"{source}, column {found.start(1) + 1}")
    if found.group(2):
        need(name not in tree.behind, f"{shown(name)} is given twice", f"{source}, column {found.start(1) + 1}")
        tree.behind[name] = Parser(tree, text, source, found.end()).whole()


class Layout:
    """The nodes of a tree's types, children first, each once."""

    def __init__(self, tree):
        self.tree, self.nodes = tree, {}
        self.names = {name: k for k, name in enumerate(sorted(tree.names))}

    def body(self, t, children):
        number, _, data = self.tree.types[t]
        if number in (PRIMITIVE, TY_VAR):
            return [data]
        if number == NAMED:
            return [NEW.word(False, self.names[data], children[0])]
        if number != ATTR_SET:
            return children
        fields = [NEW.word(optional, self.names[name], n) for (name, optional), n in zip(data[0], children)]
        return fields + children[len(fields):]

    def number(self, t, children):
        """The number of the node that a type becomes with these children."""
        kind, _, data = self.tree.types[t]
        body = self.body(t, children)
        flags = 2 * data[2] + data[1] if kind == ATTR_SET else 0
        number = self.nodes.setdefault((head(kind, len(body), flags), *body), len(self.nodes))
        need(number < NODES, "a 4,097th node", self.tree.places[t], 7)
        return number

    def put(self, root):
        """The number of a type's node."""
        done, todo = {}, [root]
        while todo:
            t = todo[-1]
            children = self.tree.types[t][1]
            waiting = [c for c in children if c not in done]
            if waiting:
                todo += reversed(waiting)
                continue
            todo.pop()
            if t not in done:
                done[t] = self.number(t, [done[c] for c in children])
        return done[root]


def number(n, count):
    return n.to_bytes(count, "big")


def lay_out(names, nodes, root):
    """The bytes of a sheet."""
    opening = number(len(names), 2) + number(len(nodes), 2) + number(root, 2)
    table = b"".join(number(len(name), 1) + name.encode() for name in names)
    data = opening + table + b"".join(number(word, 4) for node in nodes for word in node)
    need(len(data) <= BYTES, f"the sheet would have {len(data):,} bytes", rule=10)
    return data


def parsed(texts):
    """What pairs of a text and where it stands give, a type first, then NAME=TYPE or NAME: all types, and the first's number."""
    tree = Tree()
    (text, source), *more = texts
    for each in more:
        define(tree, *each)
    return tree, Parser(tree, text, source).whole()


def laid_out(tree, root):
    """The bytes of the sheet of a type, and its names with their numbers."""
    layout = Layout(tree)
    root = layout.put(root)
    return lay_out(layout.names, layout.nodes, root), layout.names


def sheet(texts):
    return laid_out(*parsed(texts))[0]
