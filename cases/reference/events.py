"""Events: what happens at a bank, each at a moment. A user asks by a file; the other three the bank does by itself."""
from typing import NamedTuple

from .requests import Request


class File(NamedTuple):
    """A request file of a user who signed on. It is no poll."""

    user: int  # the user's number in the setup, from 0
    request: Request


class Post(NamedTuple):
    """A transfer that waits is posted, or closed where there is no cover."""

    id: int


class Spawn(NamedTuple):
    """A model makes the transfer of this place of its series, from 0."""

    model: int
    place: int


class Letter(NamedTuple):
    """A mail of the bank to a user."""

    user: int  # the user's number in the setup, from 0
    subject: bytes
    body: bytes
