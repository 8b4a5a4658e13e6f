"""A rehearsal: 2,000 steps of a world that are drawn from a seed, one an hour, and six lines of what came of them."""
from datetime import timedelta

from .amounts import written_amount
from .client import Client, Wish
from .requests import Account, Series, Terms
from .setup import Setup
from .world import World

TURNS, HOUR = 2000, timedelta(hours=1)

ACCOUNTS = [Account(b"1", b"%d" % number, b"CHECKING") for number in (100, 101, 102, 103)]
USERS = [b"u0", b"u1", b"u2"]
SETUP = Setup(
    bank=b"1", lead=2, window=4, most_entries=9999999999, users={user: b"p" for user in USERS},
    accounts={
        account: (100000, [owner] if owner else USERS) for account, owner in zip(ACCOUNTS, [*USERS, None])
    })


class Chance:
    """Numbers drawn from a seed."""

    def __init__(self, seed):
        self.state = seed

    def draw(self, most):
        self.state = (self.state * 6364136223846793005 + 1442695040888963407) % 2 ** 64
        return self.state // 2 ** 33 % most


def rehearsed(seed):
    """The six lines."""
    world = World(SETUP, [Client(b"k%d" % n, user) for n, user in enumerate(USERS)])
    chance = Chance(seed)
    for _ in range(TURNS):
        world.now += HOUR
        take_turn(world, chance)
    return b"".join(name + b" " + what + b"\n" for name, what in came_of(seed, world))


def came_of(seed, world):
    stores = [store for client in world.clients for store in client.stores]
    yield b"rehearse", b"%d" % seed
    yield b"files", b"%d" % sum(client.next - 1 for client in world.clients)
    yield b"events", b"%d" % len(world.bank.records)
    yield b"entries", b"%d" % world.bank.count
    yield b"sum", written_amount(sum(world.bank.balances.values()))
    yield b"lost", b"%d" % sum(store.lost for store in stores)


def take_turn(world, chance):
    """The client is drawn before what happens."""
    client, step = chance.draw(3), chance.draw(10)
    if step < 3:
        if world.clients[client].outstanding is None:
            world.make(client, wished(world, chance, client))
    elif step == 3:
        world.send(client)
    elif step < 6:
        if world.requests:
            world.deliver(chance.draw(len(world.requests)))
    elif step < 8:
        if world.replies:
            world.deliver_reply(client, chance.draw(len(world.replies)))
    elif step == 8:
        world.due()
    else:
        trouble(world, client, chance.draw(4))


def trouble(world, client, kind):
    if kind < 2:
        world.fault = kind == 1
    elif kind == 2:
        world.restart()
    else:
        world.restart_client(client)


def wished(world, chance, number):
    """What the client's user wishes, about their own account or the shared one."""
    own = ACCOUNTS[number if chance.draw(2) == 0 else 3]
    kind = chance.draw(5)
    other = ACCOUNTS[chance.draw(4)]
    if kind == 0:
        return Wish(b"sync", own)
    if kind == 4:
        return Wish(b"mail", subject=b"s", body=b"b")
    cents = 1 + chance.draw(5000 if kind == 3 else 30000)
    day = None if kind == 1 else world.now.date() + timedelta(days=1 + chance.draw(5))
    terms = Terms(own, other, cents, day)
    if kind == 3:
        return Wish(b"repeat", terms=terms, series=Series(3, b"WEEKLY"))
    return Wish(b"transfer", terms=terms)
