"""The words of a node (document 01, "Words of the arena"; document 02, A2), and how something is refused."""

PRIMITIVES = "null bool int float string path uri number".split()
BOTTOM, TOP, PRIMITIVE, TY_VAR, LIST, LAMBDA, ATTR_SET, UNION, INTERSECTION, NAMED, NEG = range(11)
KINDS = "never,any,primitive,variable,list,lambda,set,union,intersection,named,neg".split(",")
SEPARATORS = {UNION: "|", INTERSECTION: "&"}
UNKNOWN = 4294967295
NODES, WORDS, MEMBERS, BYTES = 4096, 16384, 64, 65536

RULES = {
    1: "a table has at most 4,096 names in 65,536 bytes, each a length byte of 1 to 64 and as many bytes of 32 to 126, "
       "in strictly rising bytewise order",
    3: "a node's kind is 0 to 10, its count, code and flags fit the kind, and the bits that have no meaning are 0",
    4: "a node's children come before it, and its names are in the table",
    5: "the names of a set's fields rise strictly",
    6: "the root is one of the nodes",
    7: "an arena holds at most 4,096 nodes and 16,384 words",
    8: "a list has at most 64 different members",
    9: "a text has at most 65,536 bytes",
    10: "a sheet ends where its last node ends, has at most 65,536 bytes and no node twice; "
        "a fix that `fit` reads has at most 131,072 words",
    11: "a sheet that is converted is an old one that the old rules take, simplification left aside",
    13: "a fix has at most 1,024 values, and a list in it at most 65,535 elements",
    14: "a type that a fix is held against has no variables",
}
AUTHOR, SIZE = "whoever made the node or chose the root", "the size of the work"
CAUSES = {1: "whoever made the name table", 10: "whoever sent the sheet"}
CAUSES.update({3: AUTHOR, 4: AUTHOR, 5: AUTHOR, 6: AUTHOR, 7: SIZE, 8: SIZE, 9: SIZE})


class Refused(Exception):
    """What can't be done: what it is, where it is, and the number of the rule if document 01 has one."""

    def __init__(self, what, where="", rule=None):
        super().__init__(what)
        self.what, self.where, self.rule = what, where, rule

    def __str__(self):
        number = f"refused {self.rule}: " if self.rule else ""
        where = f"{self.where}: " if self.where else ""
        rule = f" (rule {self.rule}: {RULES[self.rule]})" if self.rule else ""
        return f"{number}{where}{self.what}{rule}"


def need(true, what, where="", rule=None):
    if not true:
        raise Refused(what, where, rule)


def kind(node):
    return node[0] >> 28


def is_open(node):
    return node[0] >> 27 & 1


def dynamic(node):
    return node[0] >> 26 & 1


def head(number, count, flags=0):
    return number << 28 | flags << 26 | count


def field_words(node):
    """Those words of the body that hold a name."""
    if kind(node) == NAMED:
        return node[1:]
    return node[1:len(node) - dynamic(node)] if kind(node) == ATTR_SET else ()


class FieldLayout:
    """A field word: the mark `optional`, a name of so many bits, zeros, a child of 12 bits; and the most names of a table."""

    def __init__(self, bits, names):
        self.bits, self.name_at, self.names = bits, 31 - bits, names

    def word(self, optional, name, child):
        return optional << 31 | name << self.name_at | child

    def name(self, word):
        return word >> self.name_at & (1 << self.bits) - 1

    def zero(self, word):
        return word >> 12 & (1 << self.name_at - 12) - 1


OLD, NEW = FieldLayout(8, 256), FieldLayout(16, 4096)


def optional(word):
    return word >> 31


def child(word):
    return word & 0xFFF


def children(node):
    return [child(word) for word in node[1:]] if kind(node) > TY_VAR else []


def with_children(node, new):
    """The same node with other children."""
    return (node[0], *(word & ~0xFFF | n for word, n in zip(node[1:], new))) if new else node


def relaid(node, before, after):
    """The same node in another layout."""
    fields = [after.word(optional(word), before.name(word), child(word)) for word in field_words(node)]
    return (node[0], *fields, *node[1 + len(fields):])


def run(job):
    """Runs a recursion written as generators: each yields what it calls, and is sent the answer. No stack grows."""
    stack, answer = [job], None
    while stack:
        try:
            called = stack[-1].send(answer)
        except StopIteration as done:
            stack.pop()
            answer = done.value
        else:
            stack.append(called)
            answer = None
    return answer
