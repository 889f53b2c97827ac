"""An old sheet made new (document 02, A2)."""
from .nodes import OLD, Refused
from .parsing import lay_out
from .reading import Sheet


def converted(data):
    """The new sheet of an old one. Reading takes exactly the bytes that are laid out again, so nothing but field words changes."""
    try:
        sheet = Sheet(data, OLD)
    except Refused as why:
        raise Refused(f"{why.what}; the old rules refuse it by {why.rule}", why.where, 11) from None
    return lay_out(sheet.names, sheet.nodes, sheet.root)
