"""What a till gets of the built gateway, and what the built terminal to play with prints, at each of its plays; and that it refuses other words.

try_plays.py GATEWAY PTSCRIPT: builds of the two programs. It ends with status 1 at the first thing that differs."""
import collections
import os
import signal
import subprocess
import sys
import tempfile

from played import Differs, Gateway, free_address, text_of

# What the terminal plays, in the order of the payments.
PLAYS = ["approve", "decline:6C", "cut", "drop", "silent"]
# Each payment's amount, and what its till gets.
RESULTS = [(10.99, "Success"), (2, "Failure Cancel"), (3, "Success"), (4, "Failure Aborted"), (5, "Failure Aborted"), (6, "Success")]
# What the terminal books: the payments that got Success.
BOOK = ["000001 payment 10.99 receipt 0001", "000002 payment 3.00 receipt 0002", "000003 payment 6.00 receipt 0003"]

# What a gateway's configuration says of a terminal.
Configured = collections.namedtuple("Configured", "address password")


def same(found, expected, what):
    if found != expected:
        raise Differs("%s: expected %r, and got %r" % (what, expected, found))


def result(body):
    response = body["Response"]
    return response["Result"] + (" " + response["ErrorCondition"] if "ErrorCondition" in response else "")


def play(program, terminal, folder):
    address = free_address()
    played = subprocess.Popen([terminal, "play", text_of(address), *PLAYS], stdout=subprocess.PIPE, text=True)
    gateway = Gateway(program, os.path.join(folder, "gateway.jrn"), [Configured(address, "123456")])
    try:
        till = gateway.till()
        for service, (amount, expected) in enumerate(RESULTS, 1):
            gateway.wait_ready(till, ["T1"])
            till.pay(service, amount)
            same(result(till.message("Payment", service)), expected, "payment %d" % service)
    finally:
        gateway.kill()
        played.kill()
    same(played.communicate()[0].splitlines(), BOOK, "what the terminal has booked")


def refuses(terminal):
    """Words that are others, and addresses at which it can't listen."""
    rows = [([], 64, "words\n"), (["serve"], 64, "words\n"), (["play", "127.0.0.1:0"], 64, "words\n"), (["serve", "127.0.0.1:0", "approve"], 64, "words\n")]
    rows += [(["play", "127.0.0.1:0", word], 64, "words\n") for word in ("", "Approve", "decline", "decline:", "decline:6", "decline:6C0", "decline:6G", "decline:+6")]
    rows += [(["serve", word], 69, "listen\n") for word in ("", "localhost:20007", "127.0.0.1", "192.0.2.1:20007")]
    for words, status, line in rows:
        ended = subprocess.run([terminal, *words], capture_output=True, text=True, timeout=10)
        same((ended.returncode, ended.stdout), (status, line), "ptscript %r" % words)


def main():
    # an end by `timeout` kills the programs too
    signal.signal(signal.SIGTERM, lambda *_: sys.exit(1))
    program, terminal = sys.argv[1:]
    try:
        refuses(terminal)
        with tempfile.TemporaryDirectory() as folder:
            play(program, terminal, folder)
    except Differs as difference:
        print("try-plays: %s" % difference)
        return 1
    print("try-plays: at each play the till gets what the terminal has booked")
    return 0


sys.exit(main())
