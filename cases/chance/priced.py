"""Amounts at random: most of them small and well spelled, some near a limit, some damaged."""

SMALL = (
    b"0.01", b"0.01", b"1.00", b"1", b"1,00", b".5", b"5.", b"7,5", b"10.00", b"010.00", b"+2.50", b"100.00", b"100.01",
    b"50.01", b"1.500",
)
EDGES = (
    b"0", b"0.00", b"-0", b"-.01", b"-1.00", b"+,0", b"99999999999.99", b"-99999999999.99", b"099999999999.990",
    b"1." + b"0" * 30, b"0" * 31 + b"1", b"150.01",
)
# Those that have no form.
WRONG = (
    b".", b",", b"+", b"-", b"1.005", b"1.001", b"100000000000.00", b"-100000000000", b"1,000.00", b"1.0.0", b"+-1",
    b"1-", b"1e2", b"ten", b"0x1", b"1 0", b"1." + b"0" * 31, b"0" * 32 + b"1", b"\xb2", b"18446744073709551617",
)
BYTES = b"0123456789.,+-& \r\nxE\xb2"


def amount(r):
    return r.choice(SMALL) if r.random() < 0.8 else r.choice(EDGES)


def any_amount(r):
    """An amount, now and then one that has no form, or with a byte damaged."""
    text = r.choice(WRONG) if r.random() < 0.3 else amount(r)
    if r.random() < 0.3:
        at = r.randrange(len(text) + 1)
        text = text[:at] + r.choice((b"", bytes([r.choice(BYTES)]))) + text[at + r.randrange(2):]
    return text
