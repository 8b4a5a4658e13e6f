"""What is done for BANKMAILTRNRQ and MAILTRNRQ, and for a letter of the bank.

The refusals stand here in the order in which they are tried; the first that holds is the answer.
"""
from .bank import NO_TRNUID, Letter
from .requests import Mail

BANK_NAME = b"BANK"  # as the bank stands in FROM and TO
NO_ACCOUNT = 2003
NO_RECEIVER = 16501


def refusal(bank, asker, ask):
    """A mail is about an account of the user, or about none, and to the bank."""
    if ask.form == b"BANKMAILRQ" and not bank.owns(asker, ask.account):
        return NO_ACCOUNT
    return None if ask.mail.target == BANK_NAME else NO_RECEIVER


def change(bank, asker, ask, at):
    return bank.put_letter(ask.trnuid, Letter(ask.account, asker.user, ask.mail))


def write_to(bank, user, subject, body, at):
    """A letter of the bank to a user."""
    bank.put_letter(NO_TRNUID, Letter(None, user, Mail(at, BANK_NAME, user, subject, body)))
