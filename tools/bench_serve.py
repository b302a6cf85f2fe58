"""Payments a second of the built gateway over loopback with 1, 8 and 32 terminals, beside the four syncs that a payment owes, made
by this script alone in the same run; and the time from a till's request to the first byte of `06 01`, beside the two syncs before it.

bench_serve.py PROGRAM PAYMENTS FOLDER: PROGRAM is a build of the program, PAYMENTS how many are made in a round in all; journals lie in FOLDER,
which has to be on the disk that is measured. Each figure is the median of ROUNDS rounds, and rounds of the gateway and of the bare syncs go by turns.
Each terminal has a till of its own, which pays again as soon as it has its reply. Tills and terminals are played by one thread that only reads and
writes bytes that were made before the round; how long that thread runs in a payment is measured too."""
import os
import select
import socket
import statistics
import struct
import sys
import tempfile
import time

from played import ACK, COMPLETION, PATIENCE, Gateway, apdu, digits, frame

ROUNDS = 5


def bare_syncs(path, payments):
    """Seconds that the writes and syncs of so many payments take: for each of two records the body, a sync, the gate, a sync."""
    with open(path, "wb", buffering=0) as file:
        handle = file.fileno()
        os.pwrite(handle, b"\0", 0)
        os.fsync(handle)
        began = time.perf_counter()
        for slot in range(2 * payments):
            os.pwrite(handle, bytes(256), 256 * slot + 1)
            os.fdatasync(handle)
            os.pwrite(handle, b"\xa5", 256 * slot)
            os.fdatasync(handle)
        took = time.perf_counter() - began
    os.remove(path)
    return took


def payment(number, sale, poi):
    sale_data = {"SaleTransactionID": {"TransactionID": str(number), "TimeStamp": "2025-03-07T10:11:04+00:00"}}
    amounts = {"Currency": "EUR", "RequestedAmount": 1 + number % 50}
    return frame("Payment", number, sale, poi, {"SaleData": sale_data, "PaymentTransaction": {"AmountsReq": amounts}})


class Terminal:
    """A ZVT terminal that approves each payment of those foreseen at once."""

    password = "123456"

    def __init__(self, payments):
        self.listener = socket.create_server(("127.0.0.1", 0))
        self.address = self.listener.getsockname()
        self.line, self.got, self.paid, self.asked = None, b"", 0, 0.0
        self.answers = [
            ACK
            + apdu("040f", b"\x27\x00\x04" + digits(100 * (1 + number % 50), 6) + b"\x0b" + digits(number, 3) + b"\x87" + digits(number, 2))
            + COMPLETION
            for number in range(1, payments + 1)
        ]

    def accept(self):
        self.line, _ = self.listener.accept()
        self.line.setsockopt(socket.IPPROTO_TCP, socket.TCP_NODELAY, 1)
        return self.line

    def on_bytes(self):
        self.got += self.line.recv(4096)
        now = time.perf_counter()
        while len(self.got) >= 3 and len(self.got) >= 3 + self.got[2]:
            head, self.got = self.got[:2], self.got[3 + self.got[2] :]
            if head == b"\x06\x01":
                self.asked = now
                self.paid += 1
                self.line.sendall(self.answers[self.paid - 1])
            elif head == b"\x06\x20":
                self.line.sendall(ACK + apdu("061e", b"\x83"))
            elif head[:1] not in (b"\x80", b"\x84"):
                self.line.sendall(ACK + COMPLETION)


class Till:
    """A till that pays again as soon as it has its reply."""

    def __init__(self, address, sale, terminal, poi, payments):
        self.line = socket.create_connection(address, PATIENCE)
        self.line.setsockopt(socket.IPPROTO_TCP, socket.TCP_NODELAY, 1)
        self.terminal, self.poi, self.sale, self.got = terminal, poi, sale, b""
        self.requests = [payment(number, sale, poi) for number in range(1, payments + 1)]
        self.made, self.sent, self.delays, self.is_ready = 0, 0.0, [], False

    def ask(self):
        """Asks whether its terminal is ready."""
        self.line.sendall(frame("Diagnosis", 900000 + int(time.monotonic() * 1000) % 90000, self.sale, self.poi, {}))

    def pay(self):
        self.sent = time.perf_counter()
        self.line.sendall(self.requests[self.made])

    def on_bytes(self):
        self.got += self.line.recv(65536)
        while len(self.got) >= 4 and len(self.got) >= 4 + struct.unpack(">I", self.got[:4])[0]:
            end = 4 + struct.unpack(">I", self.got[:4])[0]
            text, self.got = self.got[4:end], self.got[end:]
            if b'"DiagnosisResponse"' in text:
                self.is_ready = b'"GlobalStatus":"OK"' in text
                continue
            if b'"Result":"Success"' not in text:
                sys.exit("bench-serve: a payment isn't approved: %r" % text)
            self.delays.append(self.terminal.asked - self.sent)
            self.made += 1
            if self.made < len(self.requests):
                self.pay()


class Loop:
    """Hands each socket that has bytes to its till or terminal."""

    def __init__(self):
        self.poll, self.owners = select.epoll(), {}

    def add(self, line, on_bytes):
        self.poll.register(line.fileno(), select.EPOLLIN)
        self.owners[line.fileno()] = on_bytes

    def run(self, is_over, seconds):
        end = time.monotonic() + seconds
        while not is_over():
            for handle, _ in self.poll.poll(0.02):
                self.owners[handle]()
            if time.monotonic() > end:
                return False
        return True


def connect(gateway, terminal, number, each):
    """A till of its own for the terminal, once the gateway listens."""
    end = time.monotonic() + PATIENCE
    while True:
        try:
            return Till(gateway.listen, "S%d" % number, terminal, "T%d" % number, each)
        except ConnectionRefusedError:
            if time.monotonic() > end:
                sys.exit("bench-serve: the gateway doesn't listen")
            time.sleep(0.005)


def round_of(program, folder, terminals, payments):
    """Seconds that a payment takes, seconds of the processor that the playing thread takes for it, and the delays until each was asked for."""
    journal, each = os.path.join(folder, "gateway.jrn"), payments // terminals
    played = [Terminal(each) for _ in range(terminals)]
    loop = Loop()
    for one in played:
        loop.add(one.listener, lambda one=one: loop.add(one.accept(), one.on_bytes))
    gateway = Gateway(program, journal, played)
    try:
        tills = [connect(gateway, one, number + 1, each) for number, one in enumerate(played)]
        for till in tills:
            loop.add(till.line, till.on_bytes)
        end = time.monotonic() + PATIENCE
        while not all(till.is_ready for till in tills):
            for till in tills:
                till.ask()
            loop.run(lambda: all(till.is_ready for till in tills), 0.05)
            if time.monotonic() > end:
                sys.exit("bench-serve: a terminal doesn't become ready")
        # replies to what was asked before are read, so that none is left for the round
        loop.run(lambda: False, 0.2)
        before, began = time.thread_time(), time.perf_counter()
        for till in tills:
            till.pay()
        if not loop.run(lambda: all(till.made == each for till in tills), 120):
            sys.exit("bench-serve: the payments were not made within 120 seconds")
        took, played_for = time.perf_counter() - began, time.thread_time() - before
    finally:
        gateway.kill()
        os.remove(journal)
    made = each * terminals
    return took / made, played_for / made, [delay for till in tills for delay in till.delays]


def main():
    program, payments = sys.argv[1], int(sys.argv[2])
    with tempfile.TemporaryDirectory(dir=sys.argv[3]) as folder:
        print("%-10s %14s %14s %10s %12s %16s %16s" % ("terminals", "payments/s", "bare syncs/s", "ratio", "played, ms", "to 06 01, ms", "two syncs, ms"))
        for terminals in (1, 8, 32):
            served, bare, played, delays = [], [], [], []
            for _ in range(ROUNDS):
                took, played_for, waited = round_of(program, folder, terminals, payments)
                served.append(took)
                played.append(played_for)
                delays += waited
                bare.append(bare_syncs(os.path.join(folder, "bare"), payments) / payments)
            one, syncs = statistics.median(served), statistics.median(bare)
            figures = (1 / one, 1 / syncs, syncs / one, 1000 * statistics.median(played), 1000 * statistics.median(delays), 500 * syncs)
            print("%-10d %14.1f %14.1f %10.2f %12.3f %16.3f %16.3f" % (terminals, *figures))


main()
