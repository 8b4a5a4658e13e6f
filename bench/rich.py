"""A bank with enough money for a long load, and the transfer of which the load is made."""
from samples import SETUP, aggregate, sample_file


def rich_setup():
    """The sample's setup with enough money in 1001 for all transfers."""
    with open(SETUP, "rb") as f:
        return f.read().replace(b"CHECKING 10000 ", b"CHECKING 9000000000 ")


def transfer_file():
    """A file with a transfer of 0.01, whose TRNUID is an `@`."""
    transfer = aggregate(sample_file("transfer"), b"INTRATRNRQ").replace(b"<TRNAMT>30.00", b"<TRNAMT>0.01")
    file = sample_file().replace(aggregate(sample_file(), b"STMTTRNRQ"), transfer)
    assert file.count(b"<TRNUID>t1\r\n") == 1
    return file.replace(b"<TRNUID>t1", b"<TRNUID>@")
