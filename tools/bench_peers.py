"""Payments of tills beside peers that hold a gateway up: the 99th percentile and the worst of what each payment takes, alone and beside 1, 10 and
60 peers of each kind, in one run.

bench_peers.py PROGRAM SECONDS FOLDER [LATER WORST [COUNT..]]: PROGRAM is a build of the program, SECONDS how long each part lasts, FOLDER where the journal
lies. Status 1 where beside peers the 99th percentile is more than LATER milliseconds above what it is alone (25), a payment takes more than WORST
milliseconds (100), or a terminal's link is lost.

Four tills, each with a terminal of its own, pay again some ten milliseconds after their reply. The peers are played by a process of their own: one that talks says an
empty message again and again and reads 2 KB each 40 milliseconds, each at a time of its own; of those that don't, one says the same and never reads, and the next sends half a frame. A
peer that is cut connects again. Each has a small receive buffer; where tools/bench-peers may make a network of its own the gateway's send buffers are small too, as
those of a LAN connection are."""
import os
import random
import select
import socket
import struct
import subprocess
import sys
import tempfile
import time

from played import ACK, COMPLETION, PATIENCE, Differs, Gateway, apdu, digits, frame

TILLS = 4
# What a peer that talks says at once: as many empty messages as a read of the gateway may bring.
TALK = struct.pack(">I", 2) + b"{}"
TALK_AT_ONCE = TALK * (4096 // len(TALK))
HALF_A_FRAME = struct.pack(">I", 256) + b"{"
READ, PAUSE = 2048, 0.04


class Peer:
    """A peer that holds the gateway up, and how often it was cut."""

    def __init__(self, kind, number):
        self.talks, self.reads = kind == "talk" or number % 2 == 0, kind == "talk"
        self.line, self.cuts = None, -1

    def connect(self, address):
        self.cuts += 1
        self.line = socket.socket()
        self.line.setsockopt(socket.SOL_SOCKET, socket.SO_RCVBUF, 2304)
        self.line.settimeout(PATIENCE)
        self.line.connect(address)
        self.line.setblocking(False)
        if not self.talks:
            self.line.send(HALF_A_FRAME)

    def read(self):
        """Reads some bytes. False where the gateway has closed the connection."""
        try:
            return self.line.recv(READ, 0 if self.reads else socket.MSG_PEEK) != b""
        except BlockingIOError:
            return True
        except OSError:
            return False

    def talk(self):
        """Says as much as the connection takes. False where the gateway has closed it."""
        try:
            for _ in range(4):
                self.line.send(TALK_AT_ONCE)
            return True
        except BlockingIOError:
            return True
        except OSError:
            return False


def play_peers(address, kind, count):
    """Plays peers until the process is ended."""
    peers = [Peer(kind, number) for number in range(count)]
    for peer in peers:
        peer.connect(address)
    print("connected", flush=True)
    while True:
        began = time.monotonic()
        for number, peer in enumerate(peers):
            time.sleep(max(0, began + PAUSE * number / count - time.monotonic()))
            is_there = peer.read() and (not peer.talks or peer.talk())
            if not is_there:
                peer.line.close()
                peer.connect(address)
        print(sum(peer.cuts for peer in peers), flush=True)
        time.sleep(max(0, began + PAUSE - time.monotonic()))


class Terminal:
    """A ZVT terminal that approves each payment at once."""

    password = "123456"

    def __init__(self):
        self.listener = socket.create_server(("127.0.0.1", 0))
        self.address = self.listener.getsockname()
        self.line, self.got, self.links, self.number = None, b"", 0, 0
        self.is_asked = self.is_ready = False

    def accept(self):
        self.links += 1
        self.line, self.got = self.listener.accept()[0], b""
        self.line.setsockopt(socket.IPPROTO_TCP, socket.TCP_NODELAY, 1)
        return self.line

    def status(self, amount):
        return apdu("040f", b"\x27\x00\x04" + amount + b"\x0b" + digits(self.number, 3) + b"\x87" + digits(self.number % 9999 + 1, 2))

    def on_bytes(self):
        try:
            more = self.line.recv(4096)
        except OSError:
            more = b""
        if not more:
            self.line.close()
        self.got += more
        while len(self.got) >= 3 and len(self.got) >= 3 + self.got[2]:
            head, data, self.got = self.got[:2], self.got[3 : 3 + self.got[2]], self.got[3 + self.got[2] :]
            if head == b"\x06\x01":
                self.number += 1
                self.line.sendall(ACK + self.status(data[1:7]) + COMPLETION)
            elif head == b"\x06\x20":
                self.is_asked = True
                self.line.sendall(ACK + apdu("061e", b"\x83"))
            elif head[:1] in (b"\x80", b"\x84"):
                self.is_ready = self.is_asked
            else:
                self.line.sendall(ACK + COMPLETION)


class Till:
    """A till that pays again soon after its reply."""

    def __init__(self, line, number):
        self.line, self.sale, self.poi = line, "S%d" % number, "T%d" % number
        self.got, self.service, self.sent, self.due, self.took = b"", 0, None, 0.0, []

    def pay(self):
        self.service += 1
        sale = {"SaleTransactionID": {"TransactionID": str(self.service), "TimeStamp": "2025-03-07T10:11:04+00:00"}}
        amounts = {"Currency": "EUR", "RequestedAmount": 1 + self.service % 50}
        request = frame("Payment", self.service, self.sale, self.poi, {"SaleData": sale, "PaymentTransaction": {"AmountsReq": amounts}})
        self.sent = time.perf_counter()
        self.line.sendall(request)

    def on_bytes(self):
        self.got += self.line.recv(65536)
        while len(self.got) >= 4 and len(self.got) >= 4 + struct.unpack(">I", self.got[:4])[0]:
            end = 4 + struct.unpack(">I", self.got[:4])[0]
            text, self.got = self.got[4:end], self.got[end:]
            if b'"Result":"Success"' not in text:
                sys.exit("bench-peers: a payment isn't approved: %r" % text)
            now = time.perf_counter()
            self.took.append(now - self.sent)
            self.sent, self.due = None, now + random.uniform(0.005, 0.015)


class Shop:
    """The tills and terminals of a gateway, played by one thread."""

    def __init__(self, program, journal):
        self.terminals, self.poll, self.owners = [Terminal() for _ in range(TILLS)], select.epoll(), {}
        for one in self.terminals:
            self.add(one.listener, lambda one=one: self.add(one.accept(), one.on_bytes))
        self.gateway = Gateway(program, journal, self.terminals)
        self.tills = []

    def add(self, line, on_bytes):
        self.poll.register(line.fileno(), select.EPOLLIN)
        self.owners[line.fileno()] = on_bytes

    def turn(self):
        for handle, _ in self.poll.poll(0.001):
            self.owners[handle]()

    def open(self):
        """Waits until the gateway has acknowledged what each terminal says of its last transaction, and connects the tills."""
        end = time.monotonic() + PATIENCE
        while not all(one.is_ready for one in self.terminals):
            self.turn()
            if time.monotonic() > end or self.gateway.process.poll() is not None:
                raise Differs("the terminals aren't ready")
        for number in range(1, TILLS + 1):
            till = Till(self.gateway.till().line, number)
            self.tills.append(till)
            self.add(till.line, till.on_bytes)

    def pay_for(self, seconds):
        """Seconds that each payment took, of those begun within these seconds; one that has no reply counts as long as it was waited for."""
        end = time.perf_counter() + seconds
        for till in self.tills:
            till.took = []
        while time.perf_counter() < end or (any(till.sent for till in self.tills) and time.perf_counter() < end + PATIENCE):
            self.turn()
            now = time.perf_counter()
            for till in self.tills:
                if till.sent is None and till.due <= now < end:
                    till.pay()
        now = time.perf_counter()
        late = [now - till.sent for till in self.tills if till.sent is not None]
        return sorted([took for till in self.tills for took in till.took] + late)


def percentile(took, part):
    return 1000 * took[min(len(took) - 1, int(part * len(took)))]


def beside(shop, seconds, kind, count):
    """What payments take beside peers, and how often those were cut."""
    peers = subprocess.Popen([sys.executable, __file__, "--peers", *map(str, shop.gateway.listen), kind, str(count)], stdout=subprocess.PIPE, text=True)
    try:
        if peers.stdout.readline() != "connected\n":
            raise Differs("the peers don't connect")
        took = shop.pay_for(seconds)
    finally:
        peers.kill()
        cuts = peers.stdout.read().split("\n")
        peers.wait()
    return took, (cuts[-2] if len(cuts) > 1 else "0")


def measure(shop, seconds, later, worst, counts):
    """Prints a row for each part. True where the bounds hold."""
    shop.open()
    took = shop.pay_for(seconds)
    alone, holds = percentile(took, 0.99), True
    print("%-22s %10s %9s %9s %9s %9s %7s" % ("beside", "payments/s", "half, ms", "99%, ms", "worst, ms", "links lost", "cuts"))
    row = "%-22s %10.1f %9.2f %9.2f %9.2f %9d %7s"
    print(row % ("nobody", len(took) / seconds, percentile(took, 0.5), alone, 1000 * took[-1], 0, 0), flush=True)
    for kind, name in (("talk", "that talk"), ("still", "that don't")):
        for count in counts:
            took, cuts = beside(shop, seconds, kind, count)
            late, lost = percentile(took, 0.99), sum(one.links - 1 for one in shop.terminals)
            print(row % ("%d %s" % (count, name), len(took) / seconds, percentile(took, 0.5), late, 1000 * took[-1], lost, cuts), flush=True)
            holds = holds and late <= alone + later and 1000 * took[-1] <= worst and lost == 0
            time.sleep(0.5)
    return holds


def main():
    if sys.argv[1] == "--peers":
        play_peers((sys.argv[2], int(sys.argv[3])), sys.argv[4], int(sys.argv[5]))
    program, seconds, folder = sys.argv[1], float(sys.argv[2]), sys.argv[3]
    later, worst = map(float, sys.argv[4:6] or (25, 100))
    counts = [int(count) for count in sys.argv[6:] or (1, 10, 60)]
    with tempfile.TemporaryDirectory(dir=folder) as inner:
        shop = Shop(program, os.path.join(inner, "gateway.jrn"))
        try:
            holds = measure(shop, seconds, later, worst, counts)
        finally:
            shop.gateway.kill()
    if not holds:
        sys.exit("bench-peers: a bound doesn't hold (%g ms later than alone, %g ms at most, no link lost)" % (later, worst))


main()
