"""The nodes of a sheet for people to look at: as lines, and as a picture in Graphviz's language."""
from .nodes import ATTR_SET, KINDS, LAMBDA, LIST, NEG, SEPARATORS, children, field_words, is_open, kind
from .programs import piped
from .simplifying import dropped, signs
from .texts import Texts

# by the signs of a node's places: none, positive, negative, both
SIGNS = [" ", "+", "−", "±"]
COLOURS = ["#e6e6e6", "#cfe3f7", "#fbd9c9", "#e4d5f2"]
MEANINGS = ["no place under the root", "positive places", "negative places", "places of both signs"]
SYMBOLS = {LIST: "[ ]", LAMBDA: "->", NEG: "~", **SEPARATORS}


def labels(node, texts):
    """What each child is to its node."""
    if kind(node) == ATTR_SET:
        named = [texts.field(word) for word in field_words(node)]
        return named + ["_"] * (len(node) - 1 - len(named))
    return ["param", "body"] if kind(node) == LAMBDA else [""] * len(children(node))


def dump(sheet):
    """Lines: the names, then the nodes with start, head, kind, children and text."""
    texts = Texts(sheet.nodes, sheet.names)
    found = [f"{len(sheet.names)} names, {len(sheet.nodes)} nodes, root {sheet.root}"]
    found += [f"name {k:<4} {name}" for k, name in enumerate(texts.fields)]
    found.append("node  start  head      kind          children and text")
    for n, (node, text) in enumerate(zip(sheet.nodes, texts.shorts())):
        parts = [f"{label}:{c}" if label else str(c) for label, c in zip(labels(node, texts), children(node))]
        line = f"{n:4}  {sheet.starts[n]:5}  {node[0]:08x}  {KINDS[kind(node)]:12}"
        found.append(f"{line}  {'[' + ' '.join(parts) + ']  ' if parts else ''}{text}")
    return found


def escaped(text):
    return text.replace("\\", "\\\\").replace('"', '\\"')


def symbol(node, n, texts):
    """A node's own text, without its children's."""
    if kind(node) == ATTR_SET:
        return "{ ... }" if is_open(node) else "{ }"
    return SYMBOLS.get(kind(node)) or "".join(texts.pieces(n))


def kept_nodes(sheet, gone):
    """The nodes that the root reaches by members that the first pass doesn't drop."""
    found = {sheet.root}
    for n in range(sheet.root, -1, -1):
        if n in found:
            found |= {c for k, c in enumerate(children(sheet.nodes[n])) if (n, k) not in gone}
    return found


def legend():
    """A table of the colours and of what is dashed."""
    rows = [(f' bgcolor="{COLOURS[k]}"', SIGNS[k], MEANINGS[k]) for k in (1, 2, 3, 0)]
    rows.append(("", "dashed", "dropped by the first pass of simplify,<br/>or reached by what it drops alone"))
    found = ["  legend [shape=plain, label=<", '    <table border="0" cellborder="1" cellspacing="0" cellpadding="4">']
    found += [f'      <tr><td{colour}>{sign}</td><td align="left" balign="left">{what}</td></tr>' for colour, sign, what in rows]
    return [*found, "    </table>>];"]


def draw(sheet):
    """The lines of a picture: each node once, an edge to each child."""
    texts, seen, gone = Texts(sheet.nodes, sheet.names), signs(sheet.nodes, sheet.root), dropped(sheet)
    kept = kept_nodes(sheet, gone)
    found = ["digraph sheet {", '  node [shape=box, fontname="monospace", fontsize=11];']
    found += ['  edge [fontname="monospace", fontsize=10];', *legend()]
    for n, node in enumerate(sheet.nodes):
        label = escaped(f"{n}  {symbol(node, n, texts)}  {SIGNS[seen[n]]}".rstrip())
        style = "filled,dashed" if seen[n] and n not in kept else "filled"
        root = ", penwidth=2.5" if n == sheet.root else ""
        found.append(f'  n{n} [label="{label}", style="{style}", fillcolor="{COLOURS[seen[n]]}"{root}];')
    for n, node in enumerate(sheet.nodes):
        for k, (label, c) in enumerate(zip(labels(node, texts), children(node))):
            style = ", style=dashed" if (n, k) in gone else ""
            label = str(k + 1) if kind(node) in SEPARATORS else escaped(label)
            found.append(f'  n{n} -> n{c} [label="{label}"{style}];')
    return [*found, "}"]


def svg(lines):
    """The picture by Graphviz, where it is installed."""
    return piped(["dot", "-Tsvg"], "\n".join(lines).encode(), "--svg wants the command dot of Graphviz")
