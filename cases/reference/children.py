"""The named children of a form, found by name in any order.

Of each child it is tried first whether it is repeated, then whether it is missing, then its content. A child that the
form doesn't name is never looked at.
"""
from .amounts import read_amount
from .dates import read_moment
from .fault import Fault
from .text import decoded, trimmed


def all_of(node, names):
    """The children with these names, in the order of the file."""
    return [child for child in node.children if child.name in names and child.stands()]


def maybe(node, *names):
    """The one child with one of these names. None where none stands."""
    found = all_of(node, names)
    if len(found) > 1:
        raise Fault("Repeated", found[1].at)
    return found[0] if found else None


def one(node, *names):
    """The child with one of these names, of which exactly one stands, once."""
    child = maybe(node, *names)
    if child is None:
        raise Fault("Missing", node.at)
    return child


def text(node, name, most):
    """What the child's value stands for. The limit counts these bytes."""
    child = one(node, name)
    value = decoded(trimmed(child.value))
    if len(value) > most:
        raise Fault("Value", child.at)
    return value


def word(node, name, words):
    """The child's value, one of the words."""
    child = one(node, name)
    value = decoded(trimmed(child.value))
    if value not in words:
        raise Fault("Value", child.at)
    return value


def moment(node, name):
    """The moment of the child's date."""
    return read(one(node, name), read_moment)


def maybe_moment(node, name):
    """The moment of the child's date. None where the child doesn't stand."""
    child = maybe(node, name)
    return None if child is None else read(child, read_moment)


def amount(node, name):
    """The cents of the child's amount."""
    return read(one(node, name), read_amount)


def read(child, reader):
    """What the reader makes of the child's value, which has no form where that is None."""
    value = reader(decoded(trimmed(child.value)))
    if value is None:
        raise Fault("Value", child.at)
    return value
