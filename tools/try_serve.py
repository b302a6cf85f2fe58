"""What the built gateway does between a terminal and tills on loopback: payments with print lines, a repeat, a reversal, a request that waits,
a till that vanishes, a terminal that is restarted, kills before a payment is booked, after that and after its Outcome, and a second gateway
on the same journal; and what the tools ask and read-journal say beside it.

try_serve.py PROGRAM: PROGRAM is a build of the program. It ends with status 1 at the first thing that differs."""
import decimal
import json
import os
import signal
import subprocess
import sys
import tempfile

from played import Differs, Gateway, Terminal, text_of, wait_until

TOOLS = os.path.dirname(os.path.abspath(__file__))


def same(seen, expected, what):
    if seen != expected:
        raise Differs("%s: expected %r, and got %r" % (what, expected, seen))


def result(body):
    """The result of a reply, with its condition where it has one."""
    response = body["Response"]
    return response["Result"] + (" " + response["ErrorCondition"] if "ErrorCondition" in response else "")


def printed(till, service):
    """The lines of the next print request of the payment of this ServiceID."""
    return [line["Text"] for line in till.message("Print", service)["PrintOutput"]["OutputContent"]["OutputText"]]


def pays_prints_and_reverses(gateway, terminal, till):
    terminal.prints = [b"Kundenbeleg", b"EUR 10,99"]
    till.pay(1, 10.99)
    same(printed(till, 1) + printed(till, 1), ["Kundenbeleg", "EUR 10,99"], "what the terminal prints")
    paid = till.message("Payment", 1)
    same(result(paid), "Success", "a payment")
    terminal.prints = []
    till.pay(1, 10.99)
    same(till.message("Payment", 1), paid, "the payment's repeat")
    same(terminal.charged(), 1, "payments booked after a repeat")
    till.reverse(2, paid["POIData"]["POITransactionID"]["TransactionID"])
    reversed_ = till.message("Reversal", 2)
    same((result(reversed_), reversed_["ReversedAmount"]), ("Success", decimal.Decimal("10.99")), "a reversal")


def wait_held(terminal):
    wait_until(terminal.is_held.is_set, "a payment at the terminal")


def waits_for_another(gateway, terminal, till):
    terminal.holds.set()
    till.pay(3, 5)
    wait_held(terminal)
    other = gateway.till("S2")
    other.pay(1, 7)
    other.ask_status(2, 1)
    same(result(other.message("TransactionStatus", 2)), "Failure InProgress", "the status of a request that waits")
    terminal.released.set()
    same(result(till.message("Payment", 3)), "Success", "the payment that is served")
    same(result(other.message("Payment", 1)), "Success", "the payment that has waited")
    other.close()


def till_vanishes(gateway, terminal, till):
    terminal.is_held.clear()
    terminal.holds.set()
    gone = gateway.till("S3")
    gone.pay(1, 4)
    wait_held(terminal)
    gone.close()
    terminal.released.set()
    wait_until(lambda: asks(till, "S3") != "Failure InProgress", "the end of a payment whose till is gone")
    same(asks(till, "S3"), "Success", "a payment whose till is gone")


asked = [100]


def asks(till, sale):
    """What a status says of the payment of ServiceID 1 of this SaleID."""
    asked[0] += 1
    till.send("TransactionStatus", asked[0], {"MessageReference": {"ServiceID": "1", "SaleID": sale}})
    reply = till.message("TransactionStatus", asked[0])
    if "RepeatedMessageResponse" not in reply:
        return result(reply)
    return result(reply["RepeatedMessageResponse"]["RepeatedResponseMessageBody"]["PaymentResponse"])


def terminal_restarts(gateway, terminal, till):
    links = terminal.links
    terminal.restart()
    wait_until(lambda: terminal.links > links, "a new link to a terminal that was restarted")
    gateway.wait_ready(till, ["T1"])
    till.pay(5, 3)
    same(result(till.message("Payment", 5)), "Success", "a payment after the terminal was restarted")


class Runs:
    """The gateways that were started on one journal, with one terminal."""

    def __init__(self, program, journal, terminal):
        self.program, self.journal, self.terminal = program, journal, terminal
        self.started = []

    def start(self):
        self.started.append(Gateway(self.program, self.journal, [self.terminal]))
        return self.started[-1]

    def start_again(self):
        """Kills the last one; the next one, and a till of it, once its terminal is ready."""
        self.started[-1].kill()
        self.terminal.released.set()
        gateway = self.start()
        till = gateway.till()
        gateway.wait_ready(till, ["T1"])
        return gateway, till

    def kill(self):
        for gateway in self.started:
            gateway.kill()


def repeated(till, service, of):
    """What a status repeats of the payment of this ServiceID."""
    till.ask_status(service, of)
    reply = till.message("TransactionStatus", service)
    if "RepeatedMessageResponse" not in reply:
        raise Differs("the status of a payment in which the gateway was killed: %s" % result(reply))
    return reply["RepeatedMessageResponse"]["RepeatedResponseMessageBody"]["PaymentResponse"]


def is_killed_before_the_booking(runs, till):
    """The payment is declined by the next run, and charged under a new ServiceID alone."""
    terminal = runs.terminal
    charged = terminal.charged()
    terminal.is_held.clear()
    terminal.loses.set()
    till.pay(6, 9.99)
    wait_held(terminal)
    _, till = runs.start_again()
    said = repeated(till, 7, 6)
    same((result(said), "POIData" in said), ("Failure Aborted", True), "a payment that the terminal hasn't booked as the gateway was killed")
    till.pay(6, 9.99)
    same(till.message("Payment", 6), said, "its repeat")
    same(terminal.charged(), charged, "payments booked for it")
    return till


def is_killed_after_the_booking(runs, till):
    terminal = runs.terminal
    charged = terminal.charged()
    terminal.is_held.clear()
    terminal.holds.set()
    till.pay(8, 12.34)
    wait_held(terminal)
    same(terminal.charged(), charged + 1, "payments booked before the kill")
    _, till = runs.start_again()
    said = repeated(till, 9, 8)
    paid = said.get("PaymentResult", {}).get("AmountsResp", {}).get("AuthorizedAmount")
    same((result(said), paid), ("Success", decimal.Decimal("12.34")), "a payment that the terminal has booked as the gateway was killed")
    till.pay(8, 12.34)
    same(till.message("Payment", 8), said, "its repeat")
    same(terminal.charged(), charged + 1, "payments booked in all for it")
    return till


def is_killed_after_the_outcome(runs, till):
    terminal = runs.terminal
    charged = terminal.charged()
    till.pay(10, 1.5)
    paid = till.message("Payment", 10)
    _, till = runs.start_again()
    same(repeated(till, 11, 10), paid, "the status of a payment whose till has its reply as the gateway was killed")
    till.pay(10, 1.5)
    same(till.message("Payment", 10), paid, "its repeat")
    same(terminal.charged(), charged + 1, "payments booked in all for it")


def said_by(tool, *words):
    """The last line that a tool prints, and its exit status. After 7 and 8 standard error has one line, or one for each fault."""
    ended = subprocess.run([sys.executable, "-B", os.path.join(TOOLS, tool), *words], capture_output=True, text=True)
    if ended.returncode in (7, 8) and not (ended.stderr and all(line.startswith("ask: ") for line in ended.stderr.splitlines())):
        raise Differs("%s %s says of its status %d: %r" % (tool, " ".join(words), ended.returncode, ended.stderr))
    return (ended.stdout.splitlines() or [""])[-1], ended.returncode


def is_asked(runs, gateway, folder):
    """What tools/ask and tools/read-journal say of a terminal and of payments, in progress and finished."""
    terminal, by = runs.terminal, ["--at", text_of(gateway.listen), "--file", os.path.join(folder, "ask.json")]
    same(said_by("ask", *by, "diagnosis", "T1"), ("OK", 0), "ask diagnosis")
    same(said_by("ask", *by, "diagnosis", "T2"), ("Unknown", 1), "ask diagnosis of another terminal")
    same(said_by("ask", *by, "status", "T1", "S1", "99"), ("Failure NotFound", 4), "ask status of what was never sent")
    terminal.is_held.clear()
    terminal.holds.set()
    till = gateway.till("S4")
    till.pay(1, 6)
    wait_held(terminal)
    same(said_by("ask", *by, "diagnosis", "T1"), ("Busy", 0), "ask diagnosis in a payment")
    same(said_by("ask", *by, "status", "T1", "S4", "1"), ("Failure InProgress", 3), "ask status in a payment")
    same(said_by("read-journal", runs.journal), ("open: 1", 3), "read-journal in a payment")
    terminal.released.set()
    same(result(till.message("Payment", 1)), "Success", "a payment that is asked for")
    line, status = said_by("ask", *by, "pay", "T1", "1.25")
    same((line.split()[0], line.split()[-1], status), ("Success", "1.25", 0), "ask pay")
    same(said_by("ask", *by, "reverse", "T1", line.split()[1])[1], 0, "ask reverse")
    same(said_by("ask", *by, "resume", "T1"), ("nothing was open", 0), "ask resume")
    same(said_by("read-journal", runs.journal), ("open: none", 0), "read-journal")
    asks_before_it_sends(terminal, by)
    wanted = {"gumtwice_up 1", 'gumtwice_terminal{poi="T1",state="OK"} 1', 'gumtwice_terminal{poi="T1",state="Unreachable"} 0'}
    wanted |= {"gumtwice_journal_records %d" % (os.path.getsize(runs.journal) // 256), "gumtwice_journal_slots 1000000"}
    same(wanted - measured(gateway, folder, 0), set(), "what ask metrics leaves out")
    return by


def asks_before_it_sends(terminal, by):
    """A payment whose ask ended before it was sent: nothing is begun until the cashier chooses, and it is charged once then."""
    charged, sale = terminal.charged(), {"SaleTransactionID": {"TransactionID": "1", "TimeStamp": "2025-03-07T10:11:04+00:00"}}
    with open(by[-1]) as file:
        memory = json.load(file)
    memory["count"] += 1
    memory["open"] = dict(poi="T1", category="Payment", service=str(memory["count"]), body={"SaleData": sale})
    memory["open"]["body"]["PaymentTransaction"] = {"AmountsReq": {"Currency": "EUR", "RequestedAmount": 2.5}}
    with open(by[-1], "w") as file:
        json.dump(memory, file)
    for words in (["resume", "T1"], ["pay", "T1", "9.99"]):
        same(said_by("ask", *by, *words), ("Unknown NotAccepted", 4), "ask %s with a payment that wasn't sent" % words[0])
    same(terminal.charged(), charged, "payments booked for it")
    same(said_by("ask", *by, "repeat", "T1")[1], 0, "ask repeat")
    same(said_by("ask", *by, "stop", "T1"), ("nothing was open", 0), "ask stop after that")
    same(terminal.charged(), charged + 1, "payments booked for it")


def measured(gateway, folder, expected):
    """The lines that ask metrics writes for a gateway, in a folder without them, with the exit status that is expected."""
    configuration, metrics = os.path.join(folder, "gateway.toml"), os.path.join(folder, "gateway.prom")
    with open(configuration, "w") as file:
        file.write(gateway.configuration)
    same(said_by("ask", "metrics", configuration, metrics), ("", expected), "ask metrics")
    with open(metrics) as file:
        return set(file.read().splitlines())


def is_gone(gateway, by, folder):
    """What ask says of a gateway that is gone, of a journal and of a configuration that are missing: its status, and a line on standard error."""
    same(said_by("ask", *by, "diagnosis", "T1"), ("", 7), "ask diagnosis of a gateway that is gone")
    same("gumtwice_up 0" in measured(gateway, folder, 7), True, "gumtwice_up of a gateway that is gone")
    same(said_by("ask", "metrics", os.path.join(folder, "none.toml")), ("", 8), "ask metrics without a configuration")


def second_is_refused(runs):
    second = runs.start()
    wait_until(lambda: second.process.poll() is not None, "the end of a second gateway on the same journal")
    same(second.ended(), ("open\nstatus 69\n", 69), "a second gateway on the same journal")


def play(program, folder):
    terminal = Terminal()
    runs = Runs(program, os.path.join(folder, "gateway.jrn"), terminal)
    try:
        gateway = runs.start()
        till = gateway.till()
        gateway.wait_ready(till, ["T1"])
        pays_prints_and_reverses(gateway, terminal, till)
        waits_for_another(gateway, terminal, till)
        till_vanishes(gateway, terminal, till)
        terminal_restarts(gateway, terminal, till)
        by = is_asked(runs, gateway, folder)
        till = is_killed_before_the_booking(runs, till)
        till = is_killed_after_the_booking(runs, till)
        is_killed_after_the_outcome(runs, till)
        second_is_refused(runs)
        is_gone(gateway, by, folder)
    finally:
        runs.kill()


def main():
    # an end by `timeout` kills the gateway too
    signal.signal(signal.SIGTERM, lambda *_: sys.exit(1))
    try:
        with tempfile.TemporaryDirectory() as folder:
            play(sys.argv[1], folder)
    except Differs as difference:
        print("try-serve: %s" % difference)
        return 1
    print("try-serve: each payment was charged once, and each reply agrees with the terminal's book")
    return 0


sys.exit(main())
