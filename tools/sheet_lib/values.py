"""A fix from its text, as Nix writes values. One without children is the number of its kind; lists are lists, sets are dicts."""
import re

from .nodes import need, run
from .parsing import DEEPEST, Tokens, shown
from .texts import RESERVED, spelled

KINDS = "null bool int float string path list set".split()
WORDS = {"null": "null", "true": "bool", "false": "bool"}
HIGHEST = "9223372036854775807"

# both kinds of string up to their end or to a `${`; `$$` is taken whole, since a `{` behind it begins nothing
IN_QUOTES = r'"(?:[^"\\$]|\\.|\$\$|\$(?![{$]))*'
INDENTED = r"''(?:[^$']|\$[^{']|\$(?=')|'[^'$]|'(?=\$)|''(?:[$']|\\.))*"
OPENED = re.compile(rf"{IN_QUOTES}|{INDENTED}", re.S)
URI = r"[A-Za-z][A-Za-z0-9+.-]*:[A-Za-z0-9%/?:@&=+$,_.!~*'-]+"
IN_PATH = "[A-Za-z0-9._+-]"
# a number's sign stands right before it and behind no other number or name; `1-2` is an operation
SIGN, EXPONENT, ENDED = "(?:(?<![A-Za-z0-9_.])-)?", "[Ee][+-]?[0-9]+", "(?![A-Za-z0-9_.])"
FLOAT = rf"(?:(?:0|[1-9][0-9]*)\.[0-9]*|\.[0-9]+)(?:{EXPONENT})?|[0-9]+{EXPONENT}"

# what stands only where Nix evaluates something, and what that is
EVALUATED = {"rec": "a recursive set", "let": "a let expression", "with": "a with expression", "if": "a conditional"}
EVALUATED.update({"assert": "an assertion", "inherit": "an inherited attribute", "${": "an interpolation"})
EVALUATED.update(dict.fromkeys("+-*/<>!&|", "an operation"))
ALONE = "which Nix evaluates; a fix has values alone"


def merge(found, more, place):
    """Puts further attributes into a set. Where both have a set under one name these become one, as in Nix."""
    todo = [(found, more)]
    while todo:
        into, new = todo.pop()
        for name, value in new.items():
            if name in into:
                sets = isinstance(value, dict) and isinstance(into[name], dict)
                need(sets, f"the attribute {spelled(name)} is given twice", place)
                todo.append((into[name], value))
            else:
                into[name] = value


class Reader(Tokens):
    """One value from its text; the names of its sets join a tree's. Functions that meet values within values are generators."""
    SPACE = re.compile(r"(?:[ \t\r\n]|#[^\r\n]*|/\*.*?\*/)*", re.S)
    TOKEN = re.compile(
        rf"""(?P<string>{IN_QUOTES}"|{INDENTED}''(?![$'\\])|{URI})"""
        rf"|(?P<path>(?:~|{IN_PATH}*)(?:(?:/{IN_PATH}+)+/?|/(?=\${{)))"
        rf"|(?P<float>{SIGN}(?:{FLOAT}){ENDED})|(?P<int>{SIGN}[0-9]+{ENDED})"
        r"|(?P<name>[A-Za-z_][A-Za-z0-9_'-]*)"
        r"|\.\.\.|\${|/(?!\*)|[][(){}=;.:@,?+*<>!&|-]", re.S)

    def __init__(self, tree, text, source):
        self.tree, self.line, self.begun, self.counted = tree, 1, 0, 0
        super().__init__(text, source)

    def here(self):
        """Counted on from where it was asked for last, since every value asks."""
        lines = self.text.count("\n", self.counted, self.at)
        if lines:
            self.line, self.begun = self.line + lines, self.text.rfind("\n", self.counted, self.at) + 1
        self.counted = self.at
        return f"{self.source}line {self.line}, column {self.at - self.begun + 1}"

    def unread(self):
        opened = OPENED.match(self.text, self.at)
        if opened and self.text.startswith("${", opened.end()):
            return "in this string ${ begins an interpolation, " + ALONE
        if opened:
            return "no quote ends this string"
        if self.text.startswith("/*", self.at):
            return "no */ ends this comment"
        met = self.text[self.at]
        return "no number is written so" if met in "0123456789" else f"no fix goes on with {shown(met)}"

    def kind(self):
        """What the token is, if it isn't one of the signs."""
        return self.found.lastgroup if self.found else None

    def evaluated(self):
        """Refuses a token that stands only where Nix evaluates something."""
        need(self.token not in EVALUATED, f"{self.token!r} belongs to {EVALUATED.get(self.token)}, {ALONE}", self.here())

    def no_function(self, place, *signs):
        """Refuses what began at a place if it goes on by one of these."""
        need(self.token not in signs, f"a function begins here, {ALONE}", place)

    def take(self, *wanted):
        if wanted and self.token not in wanted:
            self.evaluated()
        return super().take(*wanted)

    def whole(self):
        found = run(self.value())
        self.evaluated()
        need(self.token == "", f"the fix ends before this: {shown(self.token)}", self.here())
        return found

    def value(self):
        need(self.depth < DEEPEST, f"values stand in values over {DEEPEST:,} deep", self.here())
        self.depth += 1
        if self.token == "[":
            found = yield self.elements()
        elif self.token == "{":
            found = yield self.attributes()
        elif self.token == "(":
            self.take()
            found = yield self.value()
            self.take(")")
        else:
            found = KINDS.index(self.simple())
        self.depth -= 1
        return found

    def elements(self):
        found = []
        self.take()
        while self.token != "]":
            found.append((yield self.value()))
        self.take()
        return found

    def attributes(self):
        found, opening = {}, self.here()
        self.take()
        while self.token != "}":
            self.no_function(opening, "...")
            place, path = self.here(), [self.attribute()]
            self.no_function(opening, ",", "?")
            while self.take(".", "=") == ".":
                path.append(self.attribute())
            value = yield self.value()
            self.take(";")
            for name in reversed(path):
                value = {name: value}
            merge(found, value, place)
        self.take()
        self.no_function(opening, ":", "@")
        return found

    def attribute(self):
        """A name of an attribute. One that is reserved is told so, but `inherit` stands where names do."""
        if self.kind() != "name" or self.token == "inherit":
            self.evaluated()
        place, right = self.here(), self.kind() == "name" or self.token.startswith('"')
        need(right, f"wanted an attribute's name, met {shown(self.token)}", place)
        return self.tree.name(self.take(), place)

    def simple(self):
        """The kind of a value without children."""
        self.evaluated()
        place, kind, token = self.here(), self.kind(), self.token
        need(kind and token not in RESERVED, f"wanted a value, met {shown(token)}", place)
        self.take()
        if kind == "name":
            self.no_function(place, ":", "@")
            need(token in WORDS, f"{token!r} is a variable, {ALONE}", place)
            return WORDS[token]
        digits = token.lstrip("-0")
        need(kind != "int" or (len(digits), digits) <= (len(HIGHEST), HIGHEST), f"Nix has no integer above {HIGHEST}", place)
        cut = token.endswith("/") or self.token == "${"
        need(kind != "path" or not cut, "a path here neither ends with / nor has a ${", place)
        return kind
