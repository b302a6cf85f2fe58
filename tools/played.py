"""A terminal and a till of Python's sockets, and a gateway between them, for the scripts beside this file."""
import collections
import contextlib
import json
import os
import random
import signal
import socket
import struct
import subprocess
import sys
import threading
import time

sys.path.insert(0, os.path.join(os.path.dirname(os.path.abspath(__file__)), "..", "examples"))
from till import Connection, Lost

# How long a till, a terminal or the gateway is awaited, in seconds: also on a machine whose disk still writes what was built before.
PATIENCE = 60


class Differs(Exception):
    """Something came that wasn't expected, or nothing did."""


def wait_until(is_so, what):
    """Waits until it is so."""
    end = time.monotonic() + PATIENCE
    while not is_so():
        if time.monotonic() > end:
            raise Differs("waited in vain for " + what)
        time.sleep(0.002)


def free_address():
    """A loopback address that is free now. Its port is below those that the system gives to connections: none gets it meanwhile, and none that
    is made to it while nobody listens there is its own other end."""
    with open("/proc/sys/net/ipv4/ip_local_port_range") as file:
        first = int(file.read().split()[0])
    for _ in range(1000):
        address = "127.0.0.1", random.randrange(first // 2, first)
        with socket.socket() as probe, contextlib.suppress(OSError):
            probe.bind(address)
            return address
    raise Differs("no port is free")


def text_of(address):
    return "%s:%d" % address


def apdu(head, data=b""):
    """An APDU of this class and instruction."""
    size = bytes([len(data)]) if len(data) < 255 else b"\xff" + struct.pack("<H", len(data))
    return bytes.fromhex(head) + size + data


def digits(value, size):
    """A number as BCD in so many bytes."""
    return bytes.fromhex(str(value).zfill(2 * size))


ACK, COMPLETION = apdu("8000"), apdu("060f")


def request(category, service, sale, poi, body):
    """A till's request."""
    header = dict(
        ProtocolVersion="3.0",
        MessageClass="Service",
        MessageCategory=category,
        MessageType="Request",
        ServiceID=str(service),
        SaleID=sale,
        POIID=poi,
    )
    return {"SaleToPOIRequest": {"MessageHeader": header, category + "Request": body}}


def frame(category, service, sale, poi, body):
    """A till's request with its length before it."""
    text = json.dumps(request(category, service, sale, poi, body)).encode()
    return struct.pack(">I", len(text)) + text


class Terminal:
    """A ZVT terminal on loopback with one connection at a time, which numbers its transactions from 1 and keeps a book.

    A payment is approved at once, after the lines of `prints`. Where `holds` is set nothing is said of the next payment that is booked
    but its acknowledgement, until it is released. Where `loses` is set the next payment is acknowledged and not booked, and its connection
    ends once it is released. Where `stops` is set the next payment is acknowledged, and declined once a stop comes."""

    password = "123456"

    def __init__(self, prints=(), address=("127.0.0.1", 0)):
        self.listener = socket.create_server(address)
        self.address = self.listener.getsockname()
        self.prints = list(prints)
        self.book = []  # (kind, amount, receipt number)
        self.commands = []  # the class and instruction of each command, and when its first bytes were read
        self.holds = threading.Event()
        self.loses = threading.Event()
        self.stops = threading.Event()
        self.is_held = threading.Event()
        self.released = threading.Event()
        self.line = None
        self.links = 0
        threading.Thread(target=self._serve, daemon=True).start()

    def _serve(self):
        while True:
            try:
                self.line, _ = self.listener.accept()
            except OSError:
                return
            self.line.setsockopt(socket.IPPROTO_TCP, socket.TCP_NODELAY, 1)
            self.links += 1
            try:
                self._talk(self.line)
            except OSError:
                pass
            self.line.close()

    def _talk(self, line):
        got = b""
        while True:
            more = line.recv(4096)
            if not more:
                return
            seen = time.perf_counter()
            got += more
            while len(got) >= 3:
                size, start = (got[2], 3) if got[2] < 255 else (struct.unpack("<H", got[3:5])[0], 5)
                if len(got) < start + size:
                    break
                head, data, got = got[:2].hex(), got[start : start + size], got[start + size :]
                if head[:2] not in ("80", "84"):
                    self.commands.append((head, seen))
                    self._answer(line, head, data)

    def _report(self):
        """The status of the last transaction."""
        kind, amount, receipt = self.book[-1]
        number = len(self.book)
        return apdu("040f", b"\x27\x00\x04" + digits(amount, 6) + b"\x0b" + digits(number, 3) + b"\x87" + digits(receipt, 2))

    def _answer(self, line, head, data):
        if head == "0620":
            line.sendall(ACK + (self._report() + COMPLETION if self.book else apdu("061e", b"\x83")))
        elif head in ("0601", "0630"):
            if self.loses.is_set():
                self.loses.clear()
                line.sendall(ACK)
                self.hold()
                raise ConnectionAbortedError
            if self.stops.is_set():
                line.sendall(ACK)
                return
            if head == "0601":
                self.book.append(("payment", int(data[1:7].hex()), (len(self.book) + 1) % 10000))
            else:
                receipt = int(data[4:6].hex())
                amount = [entry[1] for entry in self.book if entry[2] == receipt][-1]
                self.book.append(("reversal", amount, (len(self.book) + 1) % 10000))
            if self.holds.is_set():
                self.holds.clear()
                line.sendall(ACK)
                self.hold()
            else:
                line.sendall(ACK)
            prints = b"".join(apdu("06d1", b"\x00" + text) for text in self.prints)
            line.sendall(prints + self._report() + COMPLETION)
        elif head == "06b0" and self.stops.is_set():
            self.stops.clear()
            line.sendall(ACK + apdu("061e", b"\x6c"))
        elif head in ("06b0", "06e0"):
            line.sendall(ACK)
        else:
            line.sendall(ACK + COMPLETION)

    def hold(self):
        self.is_held.set()
        self.released.wait(PATIENCE)
        self.released.clear()

    def charged(self):
        """How many payments are booked."""
        return sum(entry[0] == "payment" for entry in self.book)

    def asked(self):
        """How many payments it was asked for."""
        return sum(head == "0601" for head, _ in self.commands)

    def restart(self):
        """Its connection ends, as where it is switched off and on."""
        self.line.shutdown(socket.SHUT_RDWR)

    def close(self):
        """It listens no more."""
        self.listener.shutdown(socket.SHUT_RDWR)
        self.listener.close()


class Till:
    """A till with one connection, with the messages that came and weren't asked for yet."""

    def __init__(self, address, sale="S1"):
        self.sale = sale
        self.connection = Connection(address)
        self.waiting = collections.deque()

    @property
    def line(self):
        """Its socket, for a till that is played by bytes."""
        return self.connection.socket

    def send(self, category, service, body, poi="T1"):
        self.connection.send(request(category, service, self.sale, poi, body))

    def pay(self, service, amount, poi="T1"):
        sale = {"SaleTransactionID": {"TransactionID": str(service), "TimeStamp": "2025-03-07T10:11:04+00:00"}}
        self.send("Payment", service, {"SaleData": sale, "PaymentTransaction": {"AmountsReq": {"Currency": "EUR", "RequestedAmount": amount}}}, poi)

    def ask_status(self, service, of):
        self.send("TransactionStatus", service, {"MessageReference": {"ServiceID": str(of)}})

    def reverse(self, service, transaction):
        self.send("Reversal", service, {"OriginalPOITransaction": {"POITransactionID": {"TransactionID": transaction}}, "ReversalReason": "MerchantCancel"})

    def _next(self):
        try:
            message = self.connection.receive(PATIENCE)
        except Lost as fault:
            raise Differs("a till has lost its connection: %s" % fault)
        if message is None:
            raise Differs("the gateway is silent")
        return message

    def message(self, category, service):
        """The next message of this category and ServiceID; others are left for later."""
        for message in self.waiting:
            if is_of(message, category, service):
                self.waiting.remove(message)
                return body_of(message, category)
        while True:
            message = self._next()
            if is_of(message, category, service):
                return body_of(message, category)
            self.waiting.append(message)

    def close(self):
        self.connection.close()


def is_of(message, category, service):
    header = next(iter(message.values()))["MessageHeader"]
    return header["MessageCategory"] == category and header.get("ServiceID") == str(service)


def body_of(message, category):
    envelope = next(iter(message.values()))
    return envelope.get(category + "Response") or envelope[category + "Request"]


class Gateway:
    """The program in the mode `serve`, with a configuration for these terminals and a journal."""

    def __init__(self, program, journal, terminals, listen=None, line=2, wait=60, env=None):
        self.listen = listen or free_address()
        parts = ['listen = "%s"' % text_of(self.listen), 'journal = "%s"' % journal, "line = %d" % line, "wait = %d" % wait]
        for number, terminal in enumerate(terminals):
            parts += ["[[terminal]]", 'poi = "T%d"' % (number + 1), 'address = "%s"' % text_of(terminal.address), 'currency = "EUR"', 'password = "%s"' % terminal.password, "config = 186"]
        self.configuration = "".join(part + "\n" for part in parts)
        self.printed = ""
        self.process = subprocess.Popen([program, "serve"], stdin=subprocess.PIPE, stdout=subprocess.PIPE, env=env)
        # a program that has ended already reads nothing
        with contextlib.suppress(BrokenPipeError):
            self.process.stdin.write(self.configuration.encode())
            self.process.stdin.close()

    def till(self, sale="S1"):
        """A till that is connected, once the gateway listens."""
        end = time.monotonic() + PATIENCE
        while True:
            try:
                return Till(self.listen, sale)
            except Lost:
                if self.process.poll() is not None or time.monotonic() > end:
                    raise Differs("the gateway doesn't listen: %r" % (self.ended(),))
                time.sleep(0.005)

    def wait_ready(self, till, pois):
        """Waits until each of these terminals is ready."""
        end = time.monotonic() + PATIENCE
        service = 900000
        for poi in pois:
            while True:
                service += 1
                till.send("Diagnosis", service, {}, poi)
                if till.message("Diagnosis", service).get("POIStatus", {}).get("GlobalStatus") == "OK":
                    break
                if time.monotonic() > end:
                    raise Differs("%s doesn't become ready" % poi)
                time.sleep(0.02)

    def ended(self):
        """What it has printed and its status, once it has ended by itself."""
        try:
            self.printed += self.process.stdout.read().decode()
            return self.printed, self.process.wait(PATIENCE)
        except subprocess.TimeoutExpired:
            raise Differs("the gateway doesn't end")

    def kill(self):
        """Kills it, by its own id, where it runs."""
        if self.process.poll() is None:
            os.kill(self.process.pid, signal.SIGKILL)
        self.process.wait()
        self.process.stdout.close()
