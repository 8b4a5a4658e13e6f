"""The body of a file: tags and values, read in pieces from the left into a tree."""
import re

from .fault import Fault
from .names import AGGREGATES, ELEMENTS
from .text import trimmed

MAX_OPEN = 16

# A piece is a whole tag, a run of text, or a `<` that begins no whole tag.
PIECE = re.compile(rb"<(/?)([A-Za-z0-9._-]{1,32})>|[^<]+|<")
# A tag that the end of the body leaves unfinished: more bytes could still make it one.
UNFINISHED = re.compile(rb"</?[A-Za-z0-9._-]{0,32}")
# Up to the next `<`, text that isn't white space.
TEXT_AHEAD = re.compile(rb"[ \t\r\n]*[^ \t\r\n<]")
NOT_WHITE = re.compile(rb"[^ \t\r\n]")
FORBIDDEN = re.compile(rb"[\x00-\x08\x0b\x0c\x0e-\x1f]")


class Node:
    """An element with its value as it stands in the file, or an aggregate with its children."""

    __slots__ = ("name", "at", "element", "value", "children")

    def __init__(self, name, at, element):
        self.name = name
        self.at = at
        self.element = element
        self.value = b""
        self.children = []

    def stands(self):
        """An element without a value counts as absent."""
        return not self.element or trimmed(self.value) != b""


def read_tags(file, start):
    """The aggregate OFX of the body that begins at `start`; otherwise the leftmost fault of its tags."""
    top = None  # OFX, once its start tag was read
    opened = []  # the aggregates that are open, innermost last
    before = None  # the element that stands just before: its start tag, and its value where one was read
    for piece in PIECE.finditer(file, start):
        at, (end_tag, name) = piece.start(), piece.groups()
        if name is not None and not end_tag:
            before = start_tag(file, piece, top, opened)
            top = top or opened[0]
        elif name is not None:
            # An end tag belongs to the element just before where it has its name, otherwise it closes an aggregate.
            if before is None or before.name != name:
                if top is None:
                    raise Fault("Tag", at)
                if not opened or opened[-1].name != name:
                    raise Fault("Mismatch", at)
                opened.pop()
            before = None
        elif piece.group() != b"<":
            wrong = (NOT_WHITE if before is None else FORBIDDEN).search(file, at, piece.end())
            if wrong:
                raise Fault("Tag", wrong.start())
            if before is not None:
                before.value = piece.group()
        elif UNFINISHED.fullmatch(file, at):
            raise Fault("Cut", len(file))
        else:
            raise Fault("Tag", at)
    if top is None or opened:
        raise Fault("Cut", len(file))
    return top


def start_tag(file, piece, top, opened):
    """Puts the node of a start tag into the tree. The node where it is an element, None where it is an aggregate."""
    at, name = piece.start(), piece.group(2)
    behind_the_end = top is not None and not opened
    if behind_the_end or (top is None and name != b"OFX"):
        raise Fault("Tag", at)
    # A name that is neither always an element nor always an aggregate is what stands after it.
    element = name in ELEMENTS or (name not in AGGREGATES and TEXT_AHEAD.match(file, piece.end()) is not None)
    if not element and len(opened) == MAX_OPEN:
        raise Fault("Depth", at)
    node = Node(name, at, element)
    if opened:
        opened[-1].children.append(node)
    if element:
        return node
    opened.append(node)
    return None
