"""The till library against the built gateway and a played terminal: till and gateway are ended at every step of a payment, before it and after it,
and each time the till's reply agrees with the terminal's book, which has the sale at most once. A till that is started again only asks first, and the
cashier repeats what wasn't accepted, or stops it.

try_till.py PROGRAM: PROGRAM is a build of the program. It ends with status 1 at the first thing that differs.
try_till.py till HOST PORT FOLDER SALE CHOICE STEP: a till that pays one sale, and ends as by a kill at its STEP. CHOICE is the cashier's, repeat or
stop, where a payment wasn't accepted before the till was started again."""
import os
import shutil
import signal
import socket
import subprocess
import sys
import tempfile
import threading
import time

import played  # it finds the library
import till as library
from played import Differs, Gateway, Terminal, free_address, wait_until

# The trial waits less than a shop.
library.PAUSES, library.BUSY, library.AGAIN = (0.05,), 0.1, 0.1


def same(seen, expected, what):
    if seen != expected:
        raise Differs("%s: expected %r, and got %r" % (what, expected, seen))


# --- a till that is killed


def ends_at(step):
    """Counts the till's own steps, and ends the process at this one: even ones are before a step, odd ones after it."""
    counted = [0]

    def counting(act):
        def counts(*given):
            counted[0] += 1
            if counted[0] == step:
                os._exit(9)
            result = act(*given)
            counted[0] += 1
            if counted[0] == step:
                os._exit(9)
            return result

        return counts

    library.Memory.write = counting(library.Memory.write)
    library.Connection.send = counting(library.Connection.send)
    library.Till._take = counting(library.Till._take)


def pay_one(host, port, folder, sale, choice, step):
    """A till with books of its own: it finishes what is open, and pays the sale if its books don't have it."""
    ends_at(int(step))
    books = os.path.join(folder, "books")
    till = library.Till((host, int(port)), "T1", os.path.join(folder, "till.json"), "S")
    while True:
        reply = till.resume()
        if reply and reply.condition == "NotAccepted":
            reply = till.stop() if choice == "stop" else till.repeat()
        if reply is None:
            with open(books, "a+") as file:
                file.seek(0)
                if sale in file.read():
                    return
            reply = till.pay(250, "EUR", sale)
        with open(books, "a") as file:
            file.write("%s %r\n" % (sale, reply))
            file.flush()
            os.fsync(file.fileno())
        till.done()


def till_is_killed(gateway, terminal, folder, choice):
    """Returns how many steps a payment has."""
    step = 0
    while True:
        step += 1
        charged, own = terminal.charged(), os.path.join(folder, "till that %ss %d" % (choice, step))
        os.mkdir(own)
        words = [sys.executable, "-B", os.path.abspath(__file__), "till", *map(str, gateway.listen), own, "sale %s %d" % (choice, step), choice]
        ended = subprocess.run([*words, str(step)]).returncode
        same(subprocess.run([*words, "0"]).returncode, 0, "a till that was killed at step %d and started again" % step)
        with open(os.path.join(own, "books")) as file:
            lines = set(file)
        same(len(lines), 1, "ends of one sale in the books of a till that was killed at step %d" % step)
        end = lines.pop().split()[3]
        if choice == "repeat":
            same(end, "Success", "the end of that sale")
        same(terminal.charged(), charged + (end == "Success"), "payments booked for that sale, whose end is %s" % end)
        if ended == 0:
            return step - 1


# --- a gateway that is killed


class Relay:
    """Hands on what comes from whoever connects to its address to a target, and back, as long as `is_wanted` says so of each chunk."""

    def __init__(self, target, is_wanted):
        self.target, self.is_wanted = target, is_wanted
        self.listener = socket.create_server(("127.0.0.1", 0))
        self.address = self.listener.getsockname()
        threading.Thread(target=self._serve, daemon=True).start()

    def _serve(self):
        while True:
            try:
                near, _ = self.listener.accept()
            except OSError:
                return
            try:
                far = socket.create_connection(self.target)
            except OSError:
                near.close()
                continue
            for one, other in ((near, far), (far, near)):
                one.setsockopt(socket.IPPROTO_TCP, socket.TCP_NODELAY, 1)
                threading.Thread(target=self._pump, args=(one, other), daemon=True).start()

    def _pump(self, one, other):
        try:
            while True:
                chunk = one.recv(65536)
                if not chunk or not self.is_wanted(other, chunk):
                    break
        except OSError:
            pass
        for end in (one, other):
            try:
                end.shutdown(socket.SHUT_RDWR)
            except OSError:
                pass


class Bench:
    """A gateway that is killed at a chosen chunk between till and gateway or gateway and terminal, and started again."""

    def __init__(self, program, folder):
        self.program, self.journal = program, os.path.join(folder, "gateway.jrn")
        self.terminal = Terminal()
        self.to_terminal = Relay(self.terminal.address, self.is_wanted)
        self.to_terminal.password = self.terminal.password
        self.listen = free_address()
        self.to_gateway = Relay(self.listen, self.is_wanted)
        self.started, self.guard = [], threading.Lock()
        self.step, self.count = 0, 0
        self.start()

    def start(self):
        self.started.append(Gateway(self.program, self.journal, [self.to_terminal], self.listen))

    def is_wanted(self, other, chunk):
        """Hands the chunk on; the gateway is killed before that or after it, at its step."""
        with self.guard:
            self.count += 1
            before, after = self.step == 2 * self.count - 1, self.step == 2 * self.count
            if before:
                self.started[-1].kill()
                self.start()
                return False
            other.sendall(chunk)
            if after:
                self.started[-1].kill()
                self.start()
        return not after

    def kill(self):
        for gateway in self.started:
            gateway.kill()


def gateway_is_killed(bench, folder):
    """Returns how many steps a payment has."""
    till = library.Till(bench.to_gateway.address, "T1", os.path.join(folder, "till.json"), "S")
    step = 0
    while True:
        wait_until(lambda: is_ready(till), "a terminal that is ready")
        charged = bench.terminal.charged()
        step += 1
        with bench.guard:
            bench.count, bench.step = 0, step
        reply = till.pay(250, "EUR", "sale %d" % step, played.PATIENCE)
        with bench.guard:
            is_killed, bench.step = 2 * bench.count >= step, 0
        booked = bench.terminal.charged() - charged
        expected = ("Success", 250, 1) if booked else ("Failure", None, 0)
        same((reply.result, reply.cents, booked), expected, "a payment with a gateway that was killed at step %d, and its booking" % step)
        till.done()
        if not is_killed:
            till.close()
            return step - 1


def is_ready(till):
    try:
        return till.diagnose() == "OK"
    except library.Lost:
        return False


# --- what a till does about what it finds open, a ServiceID that was used, and a request that arrives late


def open_till(bench, path, sale):
    """A till that is started again after it was killed between the writing of its file and the sending of its request."""
    till = library.Till(bench.listen, "T1", path, "S")
    transaction = {"SaleTransactionID": {"TransactionID": sale, "TimeStamp": "2025-03-07T10:11:04+00:00"}}
    till.memory.begin("T1", "Payment", {"SaleData": transaction, "PaymentTransaction": {"AmountsReq": {"Currency": "EUR", "RequestedAmount": 2.5}}})
    return till


def only_asks(till, terminal):
    """A till that is started again begins nothing by itself, and nothing else before the open request has its end."""
    asked = terminal.asked()
    same(repr(till.resume()), "Unknown NotAccepted", "what became of a request that wasn't accepted")
    for what, act in (("pay", lambda: till.pay(100, "EUR", "another")), ("done", till.done)):
        try:
            raise Differs("%s with a request that has no end gave %r" % (what, act()))
        except library.Unfinished:
            pass
    same(terminal.asked(), asked, "payments that the terminal was asked for by a till that only asks")


def cashier_chooses(bench, folder):
    terminal = bench.terminal
    charged, till = terminal.charged(), open_till(bench, os.path.join(folder, "stopped.json"), "stopped")
    only_asks(till, terminal)
    terminal.stops.set()
    reply = till.stop(played.PATIENCE)
    same((reply.result, reply.condition, reply.is_recorded()), ("Failure", "Aborted", True), "a request that the cashier stops")
    same((repr(till.resume()), terminal.charged()), (repr(reply), charged), "its end, and the payments booked for it")
    till.done()
    till = open_till(bench, os.path.join(folder, "repeated.json"), "repeated")
    only_asks(till, terminal)
    same((till.repeat(played.PATIENCE).result, terminal.charged()), ("Success", charged + 1), "a request that the cashier repeats, and the payments booked")
    till.done()


def resume_waits(bench, folder):
    """A request that is in progress is asked for by statuses until it has its end."""
    terminal, till = bench.terminal, library.Till(bench.listen, "T1", os.path.join(folder, "waits.json"), "S")
    charged, asked = terminal.charged(), terminal.asked()
    terminal.is_held.clear()
    terminal.holds.set()
    same(repr(till.pay(250, "EUR", "waits", 0.5)), "Unknown", "a payment that the terminal holds")
    wait_until(terminal.is_held.is_set, "a payment at the terminal")
    till.close()
    waited = []
    till.on_wait = lambda seconds: (waited.append(seconds), len(waited) == 3 and terminal.released.set())
    same(till.resume(played.PATIENCE).result, "Success", "what became of it")
    same((len(waited) >= 3, terminal.charged(), terminal.asked()), (True, charged + 1, asked + 1), "the payments booked for it")
    till.done()


def count_is_lost(bench, folder):
    """Two tills with one file: the second one's sale isn't taken for paid by the first one's reply."""
    first, second = os.path.join(folder, "first.json"), os.path.join(folder, "second.json")
    library.Till(bench.listen, "T1", first, "S").close()
    shutil.copy(first, second)
    charged = bench.terminal.charged()
    same(library.Till(bench.listen, "T1", first, "S").pay(250, "EUR", "one").result, "Success", "the first till's sale")
    till = library.Till(bench.listen, "T1", second, "S")
    try:
        raise Differs("a ServiceID that was used before gave %r" % till.pay(250, "EUR", "two"))
    except library.Used:
        same(till.resume(), None, "what is open after a ServiceID that was used before")
    same(till.pay(250, "EUR", "two").result, "Success", "the second till's sale, under its new SaleID")
    same(bench.terminal.charged(), charged + 2, "payments booked for both")


def arrives_late(bench, folder):
    """The first request's connection is lost, and the request is delivered later. Until the terminal is ready the same request is refused, and
    the till doesn't take that for its end."""
    late = []

    def is_wanted(other, chunk):
        if b'"Payment"' in chunk and not late:
            late.append(chunk)
            threading.Thread(target=deliver, args=(chunk,), daemon=True).start()
            return False
        other.sendall(chunk)
        return True

    def deliver(chunk):
        monitor = library.Till(bench.listen, "T1", None, "monitor")
        wait_until(lambda: is_ready(monitor), "a terminal that is linked again")
        with socket.create_connection(bench.listen) as line:
            line.sendall(chunk)
            line.settimeout(played.PATIENCE)
            late.append(line.recv(65536))

    charged = bench.terminal.charged()
    till = library.Till(Relay(bench.listen, is_wanted).address, "T1", os.path.join(folder, "late.json"), "S")
    bench.terminal.restart()
    wait_until(lambda: not is_ready(till), "a terminal that was restarted")
    same(till.pay(250, "EUR", "late", played.PATIENCE).result, "Success", "a payment whose first request arrives late")
    wait_until(lambda: len(late) == 2, "the reply to a request that arrives late")
    same(bench.terminal.charged(), charged + 1, "payments booked for it")


def play(program, folder):
    bench = Bench(program, folder)
    try:
        steps = gateway_is_killed(bench, folder)
        own = [till_is_killed(bench.started[-1], bench.terminal, folder, choice) for choice in ("repeat", "stop")]
        cashier_chooses(bench, folder)
        resume_waits(bench, folder)
        count_is_lost(bench, folder)
        arrives_late(bench, folder)
    finally:
        bench.kill()
    return "the gateway ended at %d steps of a payment and the till at %d, and at %d before a stop" % (steps, *own)


def main():
    if sys.argv[1] == "till":
        return pay_one(*sys.argv[2:])
    # an end by `timeout` kills the gateway too
    signal.signal(signal.SIGTERM, lambda *_: sys.exit(1))
    try:
        with tempfile.TemporaryDirectory() as folder:
            print("try-till: %s, and each reply agrees with the terminal's book" % play(sys.argv[1], folder))
    except Differs as difference:
        print("try-till: %s" % difference)
        return 1
    return 0


sys.exit(main())
