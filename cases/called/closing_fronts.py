"""Before the bank stands a front that ends each connection after its reply, as nginx does with `keepalive_timeout 0`."""
from called.desk import expect
from called.relay import loses

TRANSFER = "transfer 1001 CHECKING 1002 SAVINGS 10.00"
MAIL = "mail Hello Hi"
LINES = "done c1-1-1 0", "intra 1001 CHECKING token 1 lost N rows 1", "done c1-2-1 0", "mail token 2 lost N rows 1"
KEEPS = b"\r\nConnection: keep-alive\r\n"
TESTS = []


def test(function):
    TESTS.append(function)
    return function


def fronts(said, ends):
    """The action by which a reply's head says this of its connection, which then ends or doesn't."""
    def act(exchange, number):
        exchange.relay.ask(exchange)
        expect(exchange.reply.count(KEEPS), 1, "how often the bank says that it keeps the connection")
        exchange.given, exchange.ends = exchange.reply.replace(KEEPS, said, 1), ends
    return act


def both_go_out(trial, said, ends):
    """A file waits; the next run sends it and its own, and makes a connection for each."""
    c1 = trial.customer()
    trial.fails(c1, TRANSFER, 17, "cut at 0", loses())
    calls = trial.relay.calls()
    trial.says_by(c1, MAIL, fronts(said, ends), *LINES)
    expect(trial.relay.calls() - calls, 2, "the number of connections")
    expect(trial.second.bank.count, 2, "the number of entries")


@test
def says_so_and_closes(trial):
    """a front that says that it closes each connection, and does: a file that waits goes out, and the next one too"""
    both_go_out(trial, b"\r\nConnection: close\r\n", True)


@test
def says_so(trial):
    """a front that says that it closes, in other letters and beside another option, and is slow to do it"""
    both_go_out(trial, b"\r\nX: 1\r\nCONNECTION: upgrade ,Close\r\n", False)


@test
def closes(trial):
    """a front that closes each connection and doesn't say so"""
    both_go_out(trial, KEEPS, True)


@test
def keeps(trial):
    """a front that keeps its connections gets both files on one, whatever other fields say"""
    c1 = trial.customer()
    trial.fails(c1, TRANSFER, 17, "cut at 0", loses())
    calls = trial.relay.calls()
    trial.says_by(c1, MAIL, fronts(b"\r\nX-Connection: close\r\nConnection: keep-alive, x-close\r\n", False), *LINES)
    expect(trial.relay.calls() - calls, 1, "the number of connections")


@test
def second_is_cut(trial):
    """a request that was written is written once: where the second connection ends without a reply, that file waits"""
    c1 = trial.customer()
    trial.fails(c1, TRANSFER, 17, "cut at 0", loses())

    def act(exchange, number):
        fronts(KEEPS, True)(exchange, number)
        if number == 1:
            exchange.given = b""
    done, lines = trial.run_whole(c1, MAIL, act)
    expect((done.status, done.note(), lines), (17, "cut at 0", list(LINES[:2])), "the end")
    trial.says(c1, "mail Bye Hi", *LINES[2:], "done c1-3-1 0", "mail token 3 lost N rows 2")
    expect(trial.second.bank.count, 3, "the number of entries")
