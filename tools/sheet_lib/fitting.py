"""A fix packed into words, and held against a type by the program `fit` (document 02, A5)."""
import os

from .nodes import NEW, TY_VAR, Refused, head, kind, need, run
from .parsing import laid_out, number, parsed
from .programs import piped
from .reading import Sheet
from .texts import variable_text
from .values import KINDS, Reader

FIT = os.path.join(os.path.dirname(os.path.abspath(__file__)), "..", "..", "target", "bin", "fit")
VALUES, WORDS, ELEMENTS = 1024, 131072, 65535
LIST, SET = KINDS.index("list"), KINDS.index("set")


def number_of(value, names, values):
    """A value's number among the packed ones, which it joins behind what it holds; for `run`."""
    if isinstance(value, dict):
        body = []
        for name in sorted(value):
            body.append(NEW.word(False, names[name], (yield number_of(value[name], names, values))))
        words = (head(SET, len(body)), *body)
    elif isinstance(value, list):
        body = []
        for element in value:
            body.append((yield number_of(element, names, values)))
        words = (head(LIST, len(body)), *body)
    else:
        words = (head(value, 0),)
    return values.setdefault(words, len(values))


def packed(value, names, where):
    """The words of a fix, as bytes: each different value once."""
    values = {}
    run(number_of(value, names, values))
    words = [word for value in values for word in value]
    need(len(words) <= WORDS, f"the fix would have {len(words):,} words", where, 10)
    need(len(values) <= VALUES, f"the fix would have {len(values):,} different values", where, 13)
    need(max(map(len, values)) <= 1 + ELEMENTS, f"a list has over {ELEMENTS:,} elements", where, 13)
    return b"".join(number(word, 4) for word in words)


def fits(types, fix, source):
    """`yes` or `no`, as the program says, of a type's texts and a fix's, whose names join the sheet's."""
    tree, root = parsed(types)
    reader = Reader(tree, fix, source)
    where, value = reader.here(), reader.whole()
    sheet, names = laid_out(tree, root)
    given = number(len(sheet), 4) + sheet + packed(value, names, where)
    said = piped([FIT], given, "fix wants the program target/bin/fit, which `tools/programs fit` builds").decode(errors="replace")
    if said == "refused 14\n":
        first = next(node for node in Sheet(sheet).nodes if kind(node) == TY_VAR)  # the sheet has the root's nodes alone
        raise Refused(f"the type has the variable {variable_text(first[1])}", rule=14)
    need(said in ("yes\n", "no\n"), f"fit answered {said[:80]!r}")
    return said.strip()
