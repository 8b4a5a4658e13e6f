"""Request files in a few words.

    {"user": "NAME PASSWORD", "old": UID, "new": UID, "asks": [ASK, ..], "changes": CHANGES}

All of it but `asks` may be left out: the user is alice, both uids are NONE, and nothing is changed in the file. An ask
is one of these texts:

    statement TRNUID ACCOUNT [START [END]]              STMTTRNRQ, with the transactions of the period
    transfer TRNUID ACCOUNT ACCOUNT AMOUNT [DUE]        INTRARQ
    change TRNUID ID ACCOUNT ACCOUNT AMOUNT [DUE]       INTRAMODRQ
    cancel TRNUID ID                                    INTRACANRQ
    repeat TRNUID SERIES ACCOUNT ACCOUNT AMOUNT [DUE]   RECINTRARQ
    rewrite TRNUID ID PENDING SERIES ACCOUNT ACCOUNT AMOUNT [DUE]
                                                        RECINTRAMODRQ, with MODPENDING
    stop TRNUID ID PENDING                              RECINTRACANRQ, with CANPENDING
    write TRNUID ACCOUNT [TO [SUBJECT [BODY]]]          BANKMAILRQ
    mail TRNUID [TO [SUBJECT [BODY]]]                   MAILRQ
    sync FAMILY ACCOUNT CHOICE [strict]                 INTRASYNCRQ, RECINTRASYNCRQ or BANKMAILSYNCRQ
    sync mail CHOICE [strict]                           MAILSYNCRQ

or a list, of a `sync` and the asks that are embedded in it. A SERIES is FREQ, or `FREQ*NINSTS`. An account is 1001 or
1002, those of samples/setup, or `NUMBER/KIND`, or `BANK/NUMBER/KIND`. START is `-` where only the end stands. Without
TO a mail goes to BANK. A FAMILY is intra, recintra or bankmail; a CHOICE is a token, or `only` for TOKENONLY, or
`refresh` for REFRESH; `strict` is REJECTIFMISSING Y.
"""
BANK = "121099999"
ACCOUNTS = {"1001": "1001/CHECKING", "1002": "1002/SAVINGS"}


def lines(tree):
    """The printed form of a tree: pairs of a name and a value or an inner tree."""
    for name, inner in tree:
        yield "<%s>" % name if isinstance(inner, list) else "<%s>%s" % (name, inner)
        if isinstance(inner, list):
            yield from lines(inner)
            yield "</%s>" % name


def account(text):
    *bank, number, kind = ACCOUNTS.get(text, text).split("/")
    return [("BANKID", bank[0] if bank else BANK), ("ACCTID", number), ("ACCTTYPE", kind)]


def terms(source, target, amount, due=None):
    accounts = [("BANKACCTFROM", account(source)), ("BANKACCTTO", account(target))]
    return ("XFERINFO", accounts + [("TRNAMT", amount)] + ([("DTDUE", due)] if due else []))


def statement(trnuid, of, start="-", end=None):
    period = [("DTSTART", start)] * (start != "-") + [("DTEND", end)] * (end is not None)
    asked = [("BANKACCTFROM", account(of)), ("INCTRAN", period + [("INCLUDE", "Y")])]
    return ("STMTTRNRQ", [("TRNUID", trnuid), ("STMTRQ", asked)])


def transfer(trnuid, *words):
    return ("INTRATRNRQ", [("TRNUID", trnuid), ("INTRARQ", [terms(*words)])])


def change(trnuid, id, *words):
    return ("INTRATRNRQ", [("TRNUID", trnuid), ("INTRAMODRQ", [("SRVRTID", id), terms(*words)])])


def cancel(trnuid, id):
    return ("INTRATRNRQ", [("TRNUID", trnuid), ("INTRACANRQ", [("SRVRTID", id)])])


def series(text):
    frequency, *count = text.split("*")
    return ("RECURRINST", [("NINSTS", number) for number in count] + [("FREQ", frequency)])


def printed(tree):
    return "".join(line + "\r\n" for line in lines(tree))


def repeat(trnuid, often, *words):
    return ("RECINTRATRNRQ", [("TRNUID", trnuid), ("RECINTRARQ", [series(often), ("INTRARQ", [terms(*words)])])])


def rewrite(trnuid, id, pending, often, *words):
    model = [series(often), ("INTRARQ", [terms(*words)])]
    deed = [("RECSRVRTID", id)] + model + [("MODPENDING", pending)]
    return ("RECINTRATRNRQ", [("TRNUID", trnuid), ("RECINTRAMODRQ", deed)])


def stop(trnuid, id, pending):
    return ("RECINTRATRNRQ", [("TRNUID", trnuid), ("RECINTRACANRQ", [("RECSRVRTID", id), ("CANPENDING", pending)])])


def text(to="BANK", subject="Hello", body="Hi"):
    texts = [("FROM", "alice"), ("TO", to), ("SUBJECT", subject), ("MSGBODY", body)]
    return ("MAIL", [("DTCREATED", "20240131120000")] + texts)


def write(trnuid, about, *words):
    return ("BANKMAILTRNRQ", [
        ("TRNUID", trnuid), ("BANKMAILRQ", [("BANKACCTFROM", account(about)), text(*words)]),
    ])


def mail(trnuid, *words):
    return ("MAILTRNRQ", [("TRNUID", trnuid), ("MAILRQ", [text(*words)])])


def sync(family, *words):
    about, (choice, *strict) = ((), words) if family == "mail" else (words[:1], words[1:])
    chosen = {"only": ("TOKENONLY", "Y"), "refresh": ("REFRESH", "Y")}.get(choice, ("TOKEN", choice))
    return (family.upper() + "SYNCRQ", [
        chosen, ("REJECTIFMISSING", "Y" if strict else "N"), *(("BANKACCTFROM", account(one)) for one in about),
    ])


ASKS = {
    "statement": statement, "transfer": transfer, "change": change, "cancel": cancel, "repeat": repeat,
    "rewrite": rewrite, "stop": stop, "write": write, "mail": mail, "sync": sync,
}


def form(ask):
    """The form of an ask, with the forms that are embedded in it."""
    if isinstance(ask, list):
        name, children = form(ask[0])
        return (name, children + [form(one) for one in ask[1:]])
    deed, *words = ask.split(" ")
    return ASKS[deed](*words)


def asked(header, what):
    """The file, with this header."""
    name, password = what.get("user", "alice secret").split(" ")
    signon = [("DTCLIENT", "20240131120000"), ("USERID", name), ("USERPASS", password)]
    asks = [form(ask) for ask in what["asks"]]
    sets = [("SIGNONMSGSRQV1", [("SONRQ", signon)])]
    for messages, of_mail in (("BANKMSGSRQV1", False), ("EMAILMSGSRQV1", True)):
        inner = [ask for ask in asks if ask[0].startswith("MAIL") == of_mail]
        sets += [(messages, inner)] * bool(inner)
    for tag, uid in (("OLDFILEUID", what.get("old")), ("NEWFILEUID", what.get("new"))):
        if uid is not None:
            header = header.replace(b"%s:NONE" % tag.encode(), b"%s:%s" % (tag.encode(), uid.encode("latin-1")))
    return header + printed([("OFX", sets)]).encode("latin-1")
