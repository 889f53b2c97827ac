"""Types as text: as the program prints them, or so that they can be read back."""
import re

from .nodes import ATTR_SET, BOTTOM, BYTES, INTERSECTION, LAMBDA, LIST, NAMED, NEG, PRIMITIVE, PRIMITIVES, SEPARATORS, TOP, TY_VAR
from .nodes import NEW, UNION, UNKNOWN, child, dynamic, field_words, is_open, kind, need, optional

IDENTIFIER = re.compile(r"[A-Za-z_][A-Za-z0-9_'-]*\Z")
RESERVED = "assert else if in inherit let or rec then with".split()
VARIABLE = re.compile(r"[a-z](0|[1-9][0-9]*)?\Z")


def is_type(word):
    """Whether a bare word, where a type may stand, is something other than a name."""
    return word in PRIMITIVES or word in ("never", "any") or bool(VARIABLE.match(word))


def quoted(name):
    """A name in quotes, by the manual: a backslash before each quote, each backslash and each `$` that `{` follows."""
    return '"' + re.sub(r'["\\]|\$(?={)', r"\\\g<0>", name) + '"'


def spelled(name):
    """A name as the manual writes it: in quotes unless it is an identifier that isn't reserved."""
    return name if IDENTIFIER.match(name) and name not in RESERVED else quoted(name)


def variable_text(index):
    return "?" if index == UNKNOWN else chr(97 + index % 26) + str(index // 26 or "")


class Texts:
    """The texts of nodes. `exact` ones can be read back; the others are the program's.

    `fields` has the names of the table as they stand before a field's colon, `named` as they stand for a type. Exact, a name
    is in quotes there too that would be read as something else: `_` as the dynamic part, `int` as the primitive."""

    def __init__(self, nodes, names, exact=True):
        self.nodes, self.exact = nodes, exact
        self.fields = [quoted(name) if exact and name == "_" else spelled(name) for name in names]
        self.named = [quoted(name) if exact and is_type(name) else spelled(name) for name in names]

    def field(self, word):
        return self.fields[NEW.name(word)] + "?" * optional(word)

    def name(self, word):
        """A named type stands as its name."""
        return self.named[NEW.name(word)]

    def pieces(self, n):
        """A node's text, as texts and the numbers of nodes whose texts stand between them."""
        node = self.nodes[n]
        number, body = kind(node), node[1:]
        if number in (BOTTOM, TOP):
            return ["never" if number == BOTTOM else "any"]
        if number == PRIMITIVE:
            return [PRIMITIVES[body[0]]]
        if number == TY_VAR:
            return [variable_text(body[0])]
        if number == LIST:
            return ["[", child(body[0]), "]"]
        if number == NAMED:
            return [self.name(body[0])]
        if number == ATTR_SET:
            return self.set_pieces(node)
        if number in SEPARATORS:
            return self.list_pieces(number, body)
        apart = (LAMBDA, UNION, INTERSECTION)
        first = self.inner(body[0], apart)
        return ["~", *first] if number == NEG else [*first, " -> ", child(body[1])]

    def inner(self, word, apart):
        """A child, in parentheses if it is of one of these kinds. An exact list of one member has its own."""
        node = self.nodes[child(word)]
        own = self.exact and kind(node) in SEPARATORS and len(node) == 2
        return ["(", child(word), ")"] if kind(node) in apart and not own else [child(word)]

    def list_pieces(self, number, body):
        if len(body) == 1 and self.exact:
            return [f"({SEPARATORS[number]} ", *self.inner(body[0], (LAMBDA, UNION, INTERSECTION)), ")"]
        apart = (LAMBDA,) if number == UNION else (LAMBDA, UNION)
        found = []
        for word in body:
            found += [f" {SEPARATORS[number]} ", *self.inner(word, (*apart, number) if self.exact else apart)]
        return found[1:]

    def set_pieces(self, node):
        parts = [[f"{self.field(word)}: ", child(word)] for word in field_words(node)]
        parts += [["_: ", child(word)] for word in node[1:][len(parts):] if dynamic(node)] + [["..."]] * is_open(node)
        found = ["{ "]
        for k, part in enumerate(parts):
            found += [", "] * (k > 0) + part
        return found + [" }"]

    def stream(self, n):
        """The text of a node from the front, piece by piece: shared nodes may make it longer than any memory."""
        todo = [n]
        while todo:
            piece = todo.pop()
            if isinstance(piece, int):
                todo += reversed(self.pieces(piece))
            else:
                yield piece

    def first(self, n, most):
        """The text of a node if it has at most so many bytes, and otherwise more of its bytes than that."""
        found, size = [], 0
        for piece in self.stream(n):
            found.append(piece)
            size += len(piece)
            if size > most:
                break
        return "".join(found)

    def whole(self, n, where):
        text = self.first(n, BYTES)
        need(len(text) <= BYTES, "the text of this node's type would have over 65,536 bytes; `dump` shows its nodes", where)
        return text

    def shorts(self, most=72):
        """The text of each node, cut where it is longer than this. Nodes come behind their children, whose texts are at hand."""
        found = []
        for n, _ in enumerate(self.nodes):
            text = "".join(found[piece] if isinstance(piece, int) else piece for piece in self.pieces(n))
            found.append(text if len(text) <= most else text[:most - 1] + "…")
        return found
