"""The replies that most answers are near to: each is the answer to one ask at the bank of samples/setup."""
from written.asks import account, printed, series, terms, text


def status(code):
    return ("STATUS", [("CODE", code), ("SEVERITY", "INFO" if code == "0" else "ERROR")])


def answered(family, trnuid, *done):
    """The answer to a deed that is done, or that was done before."""
    return (family, [("TRNUID", trnuid), status("0" if done else "2019"), *done])


def synchronised(token, *listed):
    """The answer to a synchronisation of the transfers of 1001."""
    return ("INTRASYNCRS", [("TOKEN", token), ("LOSTSYNC", "N"), ("BANKACCTFROM", account("1001")), *listed])


POSTED = answered("INTRATRNRS", "x1", ("INTRARS", [
    ("CURDEF", "USD"), ("SRVRTID", "1"), terms("1001", "1002", "10.00", "20240131000000"),
    ("XFERPRCSTS", [("XFERPRCCODE", "POSTEDON"), ("DTXFERPRC", "20240131120000")]),
]))
REPEATED = answered("RECINTRATRNRS", "x1", ("RECINTRARS", [
    ("RECSRVRTID", "1"), series("MONTHLY"), ("INTRARS", [
        ("CURDEF", "USD"), ("SRVRTID", "1"), terms("1001", "1002", "10.00", "20240201000000"), ("RECSRVRTID", "1"),
    ]),
]))
MAILED = answered("MAILTRNRS", "m1", ("MAILRS", [
    ("MAIL", [("USERID", "alice"), *text()[1], ("INCIMAGES", "N"), ("USEHTML", "N")]),
]))
ANSWERED = {
    "posted": POSTED,
    "refused": answered("INTRATRNRS", "x1"),
    "repeated": REPEATED,
    "stopped": answered("RECINTRATRNRS", "x2", ("RECINTRACANRS", [("RECSRVRTID", "1"), ("CANPENDING", "Y")])),
    "newest": synchronised("0"),
    "told": synchronised("1", POSTED),
    "mailed": MAILED,
}


def message_set(name):
    """The printed message set that has this answer alone."""
    answer = ANSWERED[name]
    messages = "EMAILMSGSRSV1" if answer[0].startswith("MAIL") else "BANKMSGSRSV1"
    return printed([(messages, [answer])])
