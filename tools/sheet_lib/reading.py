"""A sheet read from the front: the first fault met is the answer (document 01, "A sheet and its line")."""
from .nodes import ATTR_SET, BYTES, KINDS, LAMBDA, MEMBERS, NAMED, NEG, NEW, NODES, PRIMITIVE, TOP, TY_VAR, SEPARATORS
from .nodes import Refused, child, children, dynamic, field_words, is_open, kind, optional, relaid


def counts(head):
    """The least and the most body words under this head, which has a kind."""
    number = kind((head,))
    if number == ATTR_SET:
        return dynamic((head,)), MEMBERS + dynamic((head,))
    if number in SEPARATORS:
        return 1, MEMBERS
    count = 0 if number <= TOP else 2 if number == LAMBDA else 1
    return count, count


def head_fault(head):
    """What is wrong with a head by itself, or None."""
    number, count = kind((head,)), head & 0xFFFF
    if number > NEG:
        return f"kind {number}, but kinds are 0 to {NEG}"
    if head >> 16 & 0x3FF:
        return f"the ten bits between flags and count are {head >> 16 & 0x3FF} and not 0"
    if number != ATTR_SET and (is_open((head,)) or dynamic((head,))):
        return f"open or dynamic is 1 in a node that is no set but of the kind {KINDS[number]}"
    least, most = counts(head)
    if not least <= count <= most:
        wanted = f"{least}" if least == most else f"{least} to {most}"
        return f"{count} body words, but the kind {KINDS[number]} has {wanted} here"
    return None


def body_faults(node, layout):
    """3: what is wrong with the body words by themselves, each with its place among the node's words."""
    fields = len(field_words(node))
    for at, word in enumerate(node[1:], 1):
        if kind(node) == PRIMITIVE and word > 7:
            yield at, f"primitive {word}, but primitives are 0 to 7"
        elif kind(node) == NAMED and optional(word):
            yield at, "optional is 1 in a named type"
        elif kind(node) > TY_VAR and at <= fields and layout.zero(word):
            yield at, f"the {layout.name_at - 12} bits between name and child are {layout.zero(word)} and not 0"
        elif kind(node) > TY_VAR and at > fields and word >> 12:
            yield at, f"the twenty bits before the child are {word >> 12} and not 0"


def link_faults(node, below, names, layout):
    """4: children and names that aren't there."""
    fields = len(field_words(node))
    for at, _ in enumerate(children(node), 1):
        if child(node[at]) >= below:
            yield at, f"child {child(node[at])}, but this is node {below}, whose children are lower"
        if at <= fields and layout.name(node[at]) >= names:
            yield at, f"name {layout.name(node[at])}, but the table has {names}"


def order_faults(node, layout):
    """5: field names that don't rise."""
    found = [layout.name(word) for word in field_words(node)]
    for at in range(1, len(found)):
        if found[at - 1] >= found[at]:
            yield at + 1, f"name {found[at]} stands behind name {found[at - 1]}"


class Sheet:
    """The names, nodes and root of a sheet that the program takes, or that it took when the layout was old: the nodes stand in
    the new one. `bytes_at` and `starts` say where each head stands."""

    def __init__(self, data, layout=NEW):
        self.data, self.layout, self.at = data, layout, 0
        self.names, self.nodes, self.bytes_at, self.starts = [], [], [], []
        count, nodes, self.root = (self.number(2, "the six opening bytes") for _ in range(3))
        if count > layout.names:
            self.refuse(1, 0, f"the sheet says that it has {count} names")
        for _ in range(count):
            self.read_name()
        known, words = {}, 0
        for n in range(nodes):
            self.bytes_at.append(self.at)
            self.starts.append(words)
            node = self.read_node(n)
            self.judge(n, node, known.setdefault(node, n))
            self.nodes.append(relaid(node, layout, NEW))
            words += len(node)
        self.end()

    def refuse(self, rule, byte, what, node=None, word=None):
        where = f"byte {byte}"
        if word is not None:
            where += f", word {word} ({self.data[byte:byte + 4].hex()})"
        raise Refused(what, where if node is None else f"{where}, node {node}", rule)

    def take(self, count, of, node=None):
        """The next bytes. The 65,537th of a sheet is never read."""
        end = self.at + count
        if end > BYTES:
            self.refuse(10, BYTES, f"{of} would reach past the 65,536th byte", node)
        if end > len(self.data):
            self.refuse(10, len(self.data), f"the sheet ends within {of}", node)
        self.at = end
        return self.data[end - count:end]

    def number(self, count, of, node=None):
        return int.from_bytes(self.take(count, of, node), "big")

    def read_name(self):
        k, at = len(self.names), self.at
        length = self.number(1, f"the length of name {k}")
        if not 1 <= length <= 64:
            self.refuse(1, at, f"name {k} has the length {length}")
        name = self.take(length, f"name {k}")
        for i, byte in enumerate(name, at + 1):
            if not 32 <= byte <= 126:
                self.refuse(1, i, f"name {k} has a byte {byte}")
        if self.names and name <= self.names[-1].encode():
            self.refuse(1, at + 1, f"name {k} doesn't come behind name {k - 1}")
        self.names.append(name.decode())

    def read_node(self, n):
        """A head's own faults are met before its body is read, which is read whole."""
        at = self.at
        head = self.number(4, f"the head of node {n}", n)
        what = head_fault(head)
        if what:
            self.refuse(3, at, what, n, self.starts[n])
        body = self.take(4 * (head & 0xFFFF), f"the body of node {n}", n)
        return (head, *(int.from_bytes(body[k:k + 4], "big") for k in range(0, len(body), 4)))

    def judge(self, n, node, first):
        """3, 4 and 5 over the whole node, then 10 if it is there already, then 7. All words of a sheet fit an arena, its nodes may not."""
        layout = self.layout
        met = ((3, body_faults(node, layout)), (4, link_faults(node, n, len(self.names), layout)), (5, order_faults(node, layout)))
        for rule, faults in met:
            for at, what in faults:
                self.refuse(rule, self.bytes_at[n] + 4 * at, what, n, self.starts[n] + at)
        if first != n:
            self.refuse(10, self.bytes_at[n], f"the same node as node {first}", n, self.starts[n])
        if n >= NODES:
            self.refuse(7, self.bytes_at[n], "node 4,096 would be the 4,097th", n, self.starts[n])

    def end(self):
        if self.at < len(self.data):
            self.refuse(10, self.at, "the sheet goes on behind its last node")
        if self.root >= len(self.nodes):
            self.refuse(6, 4, f"root {self.root}, but there are {len(self.nodes)} nodes")

    def place(self, n):
        """Where a node stands; those that `simplify` added stand nowhere in the sheet."""
        return f"byte {self.bytes_at[n]}, word {self.starts[n]}, node {n}" if n < len(self.nodes) else f"node {n} (added)"
