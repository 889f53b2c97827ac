"""`simplify` by document 01, for what a person wants to see of it: signs, what a pass drops, and the line of a sheet."""
from .nodes import BOTTOM, BYTES, MEMBERS, NEG, LAMBDA, NODES, SEPARATORS, TOP, TY_VAR, UNION, WORDS
from .nodes import children, head, kind, need, run, with_children
from .texts import Texts

POSITIVE, NEGATIVE = 1, 2
TURNED = [0, NEGATIVE, POSITIVE, POSITIVE | NEGATIVE]


def signs(nodes, root):
    """The signs of each node's places. Children have lower numbers, so that one way down meets every place."""
    found = [0] * len(nodes)
    found[root] = POSITIVE
    for n in range(root, -1, -1):
        for k, c in enumerate(children(nodes[n])):
            turns = kind(nodes[n]) == NEG or kind(nodes[n]) == LAMBDA and k == 0
            found[c] |= TURNED[found[n]] if turns else found[n]
    return found


class Simplifier:
    """The passes over a sheet's type. `kept` has the members, by list and place in it, that the pass at work kept; `met` its lists."""

    def __init__(self, sheet):
        self.place, self.nodes, self.passes = sheet.place, list(sheet.nodes), 0
        self.numbers = {node: n for n, node in enumerate(self.nodes)}
        self.words = sum(map(len, self.nodes))

    def intern(self, node, of):
        if node not in self.numbers:
            self.words += len(node)
            room = len(self.nodes) < NODES and self.words <= WORDS
            need(room, f"pass {self.passes} has no room for what becomes of this node", self.place(of), 7)
            self.numbers[node] = len(self.nodes)
            self.nodes.append(node)
        return self.numbers[node]

    def once(self, root):
        """One pass: the root that it gives."""
        self.passes += 1
        self.cache, self.kept, self.met = {}, set(), set()
        seen = signs(self.nodes, root)
        one_sign = {n for n, sign in enumerate(seen) if sign in (POSITIVE, NEGATIVE) and kind(self.nodes[n]) == TY_VAR}
        self.removable = {n for n, node in enumerate(self.nodes) if n in one_sign or kind(node) == NEG and children(node)[0] in one_sign}
        return run(self.apply(root, True))

    def apply(self, n, removing):
        """What becomes of a node, with variables removed or none."""
        if (n, removing) not in self.cache:
            node, new = self.nodes[n], []
            if kind(node) in SEPARATORS:
                self.cache[n, removing] = yield self.close(n, removing)
            else:
                for c in children(node):
                    new.append((yield self.apply(c, removing)))
                self.cache[n, removing] = self.intern(with_children(node, new), n)
        return self.cache[n, removing]

    def close(self, n, removing):
        """What becomes of a list: all its members are simplified before it is built."""
        number, members, found = kind(self.nodes[n]), children(self.nodes[n]), []
        nothing, all_there_is = (BOTTOM, TOP) if number == UNION else (TOP, BOTTOM)
        self.met.add(n)
        for k, member in enumerate(members):
            if not (removing and member in self.removable):
                found.append((k, (yield self.apply(member, removing))))
        for k, s in found:
            if kind(self.nodes[s]) == all_there_is:
                self.kept.add((n, k))
                return s
        left = self.spliced(n, [(k, s) for k, s in found if kind(self.nodes[s]) != nothing])
        if not left:
            self.kept.add((n, 0))
            return (yield self.apply(members[0], False))
        return left[0] if len(left) == 1 else self.intern((head(number, len(left)), *left), n)

    def spliced(self, n, found):
        """First copies of what the members bring: a list of the same kind brings its own members."""
        left = {}
        for k, s in found:
            for member in children(self.nodes[s]) if kind(self.nodes[s]) == kind(self.nodes[n]) else [s]:
                if member not in left:
                    need(len(left) < MEMBERS, f"pass {self.passes} would give this list a 65th different member", self.place(n), 8)
                    left[member] = True
                    self.kept.add((n, k))
        return list(left)

    def all_passes(self, root):
        result = self.once(root)
        for _ in range(5):
            before, result = result, self.once(result)
            if result == before:
                break
        return result


def dropped(sheet):
    """The members, by list and place in it, that the first pass drops wherever it meets the list."""
    one = Simplifier(sheet)
    one.once(sheet.root)
    return {(n, k) for n in one.met for k, _ in enumerate(children(sheet.nodes[n]))} - one.kept


def line(sheet):
    """The root after `simplify`, the passes and the text, as the program prints them."""
    work = Simplifier(sheet)
    root = work.all_passes(sheet.root)
    text = Texts(work.nodes, sheet.names, exact=False).first(root, BYTES)
    need(len(text) <= BYTES, f"the text after pass {work.passes} is longer than that", sheet.place(root), 9)
    return root, work.passes, text
