"""White space, and the entities in values."""

WHITE = b" \t\r\n"


def trimmed(raw):
    return raw.strip(WHITE)


def decoded(raw):
    """`&lt;`, `&gt;` and `&amp;` stand for one byte each, decoded once; every other `&` stands for itself."""
    return raw.replace(b"&lt;", b"<").replace(b"&gt;", b">").replace(b"&amp;", b"&")


def escaped(value):
    """A value as it is written."""
    return value.replace(b"&", b"&amp;").replace(b"<", b"&lt;").replace(b">", b"&gt;")
