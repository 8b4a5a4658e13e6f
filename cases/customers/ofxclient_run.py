"""Asks a bank by `ofxclient`, in a process of its own by the Python that has that library. Prints JSON: whether the
signon is taken, and of each account the balance and the amounts of the last 30 days.

    ofxclient_run.py URL BANK USER PASSWORD NUMBER:KIND..
"""
import json
import sys

from ofxclient import BankAccount, Institution


def main():
    url, bank, user, password, *accounts = sys.argv[1:]
    institution = Institution(id="1", org="B", url=url, username=user, password=password)
    try:
        institution.authenticate()
    except ValueError:
        print(json.dumps({"signon": False}))
        return
    told = {"signon": True}
    for number, kind in (account.split(":") for account in accounts):
        account = BankAccount(number=number, institution=institution, routing_number=bank, account_type=kind)
        statement = account.statement(days=30)
        told[number] = [str(statement.balance), [str(one.amount) for one in statement.transactions]]
    print(json.dumps(told))


if __name__ == "__main__":
    main()
