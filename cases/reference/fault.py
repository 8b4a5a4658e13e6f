"""The one fault of a file that spells no request: its kind and its place, counted from the file's first byte."""


class Fault(Exception):
    """Kinds of the header: Line, Value, Cut. Of the tags: Tag, Mismatch, Depth, Cut. Of a form: Missing (its place is
    the parent's), Repeated (the second child's), Value (the element's)."""

    def __init__(self, kind, at):
        super().__init__(kind, at)
        self.kind = kind
        self.at = at
