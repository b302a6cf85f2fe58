"""A till for the gateway in one file: payments, reversals and reconciliations that survive lost connections, restarts and power failures.

    till = Till(("127.0.0.1", 7000), "T1", "till.json", "till-1")
    reply = till.resume()  # what became of the request that was open; it only asks
    if reply and reply.condition == "NotAccepted":
        reply = till.repeat()  # or till.stop(): the cashier chooses
    if reply is None:
        reply = till.pay(1099, "EUR", "27908")
    print(reply.result, reply.condition, reply.cents, reply.transaction)
    if reply.result != "Unknown":
        till.done()  # once your own books have it

docs/TILLS.md says why each step is as it is. It needs Python 3.8 or later on Linux, and nothing else."""
import datetime
import decimal
import fcntl
import json
import os
import secrets
import socket
import struct
import threading
import time

PATIENCE = 300  # seconds after which a cashier is told that the outcome isn't known
AT_ONCE = 10  # seconds in which every reply but that to a payment, a reversal and an end of day comes
SILENCE = 245  # seconds after which the gateway has a reply or is asked again: `wait`, `answer` and `command` of its configuration
AGAIN = 10  # seconds between two requests for the same outcome
BUSY = 5  # seconds until a request that was refused is sent again
PING = 30  # seconds without a message after which the connection is tried
STRAY = 120  # seconds in which the network may still deliver what was sent on a connection that is lost
PAUSES = (1, 2, 4, 5)  # seconds between attempts to connect; the last one from then on

# The library's own: no connection could be made since the request was begun.
NOT_SENT = {"Response": {"Result": "Failure", "ErrorCondition": "NotSent"}}
# The library's own, and no end: a status has said NotFound.
NOT_ACCEPTED = {"Response": {"Result": "Unknown", "ErrorCondition": "NotAccepted"}}


class Lost(Exception):
    """The connection is lost, silent, or can't be made."""


class Rejected(Exception):
    """The gateway could not read a message; the text says where."""


class Used(Exception):
    """The ServiceID was used for another sale: this one isn't paid. The till has a new SaleID from now on, so it may be paid again."""


class Unfinished(Exception):
    """Another request has no end yet, or its end wasn't confirmed by `done`."""


class Connection:
    """One connection and its one stream, out of which whole messages are read."""

    def __init__(self, address, tls=None):
        self.got, self.owed = b"", 0  # how many replies are still to come to what was sent of the open request
        try:
            self.socket = socket.create_connection(address, AT_ONCE)
            self.socket.setsockopt(socket.IPPROTO_TCP, socket.TCP_NODELAY, 1)
            # its end is a reset, also if the till is killed: what the system hasn't sent yet is dropped, and not delivered later
            self.socket.setsockopt(socket.SOL_SOCKET, socket.SO_LINGER, struct.pack("ii", 1, 0))
            if tls:
                self.socket = tls.wrap_socket(self.socket, server_hostname=address[0])
        except OSError as fault:
            raise Lost(fault.strerror or str(fault))

    def send(self, message):
        text = json.dumps(message).encode()
        try:
            self.socket.settimeout(AT_ONCE)
            self.socket.sendall(struct.pack(">I", len(text)) + text)
        except OSError as fault:
            raise Lost(fault.strerror or str(fault))

    def receive(self, seconds):
        """The next message, or None if none came in so many seconds."""
        end = time.monotonic() + seconds
        while True:
            size = struct.unpack(">I", self.got[:4])[0] if len(self.got) >= 4 else None
            if size is not None and len(self.got) >= 4 + size:
                text, self.got = self.got[4 : 4 + size], self.got[4 + size :]
                return self._message(text)
            rest = end - time.monotonic()
            if rest <= 0:
                return None
            self.socket.settimeout(rest)
            try:
                more = self.socket.recv(65536)
            except socket.timeout:
                return None
            except OSError as fault:
                raise Lost(fault.strerror or str(fault))
            if not more:
                raise Lost("the gateway has closed the connection")
            self.got += more

    def _message(self, text):
        try:
            return json.loads(text, parse_float=decimal.Decimal)
        except ValueError:
            raise Lost("what replies is no gateway")

    def close(self):
        self.socket.close()


class Memory:
    """What a till must not forget, in a file that is synced before a request is sent: its SaleID, its count, and the request without an end."""

    def __init__(self, path, name):
        self.path, self.name = path, name
        if path is None:
            self.value = {"sale": name, "count": 0, "open": None}
            return
        self.lock = open(path + ".lock", "w")
        try:
            fcntl.flock(self.lock, fcntl.LOCK_EX | fcntl.LOCK_NB)
        except OSError:
            raise SystemExit("%s: another till has this file" % path)
        try:
            with open(path) as file:
                self.value = json.load(file)
        except FileNotFoundError:
            self.renew()

    def renew(self):
        """A new SaleID, with a count from 1 on. The one before is never used again, since its count is lost."""
        self.value = {"sale": "%s-%s" % (self.name, secrets.token_hex(6)), "count": 0, "open": None}
        self.write()

    def write(self):
        with open(self.path + ".new", "w") as file:
            json.dump(self.value, file)
            file.flush()
            os.fsync(file.fileno())
        os.replace(self.path + ".new", self.path)
        folder = os.open(os.path.dirname(os.path.abspath(self.path)), os.O_RDONLY)
        os.fsync(folder)
        os.close(folder)

    def begin(self, poi, category, body):
        if self.path is None or self.value["open"]:
            raise Unfinished("%(category)s %(service)s" % self.value["open"] if self.path else "a till without a file")
        self.value["count"] += 1
        self.value["open"] = {"poi": poi, "category": category, "service": str(self.value["count"]), "body": body}
        self.write()


class Reply:
    """What became of a request.

    `result` is Success, Partial or Failure; or Unknown, which is no end: the gateway doesn't know or can't be reached, or, with the condition
    NotAccepted, hasn't accepted the request so far. `condition` says why it is a failure (NotSent where no connection could be made for it),
    `cents` is what was paid or given back, `transaction` is the text by which a reversal names a payment, `body` the whole reply."""

    def __init__(self, body):
        self.body = body
        response = body.get("Response", {})
        self.result, self.condition = response.get("Result", "Unknown"), response.get("ErrorCondition", "")
        self.detail = response.get("AdditionalResponse", "")
        self.transaction = body.get("POIData", {}).get("POITransactionID", {}).get("TransactionID")
        amount = body.get("PaymentResult", {}).get("AmountsResp", {}).get("AuthorizedAmount", body.get("ReversedAmount"))
        self.cents = None if amount is None else int(decimal.Decimal(amount) * 100)

    def is_recorded(self):
        """Whether the gateway has recorded this end, so that nothing else can become of the request."""
        return self.result in ("Success", "Partial") or self.transaction is not None

    def is_refusal(self):
        """Whether nothing was begun for the message that gets this."""
        return self.result == "Failure" and self.condition != "InProgress" and not self.is_recorded()

    def __repr__(self):
        amount = "" if self.cents is None else "%d.%02d" % divmod(self.cents, 100)
        return " ".join(filter(None, (self.result, self.condition, self.detail, self.transaction, amount)))


class Till:
    """A till at one terminal. All but `abort` is called by one thread. One with None for a path has `name` as its SaleID, and only asks.

    `on_show(text)` and `on_print(lines)` get what the terminal shows and prints, `on_wait(seconds)` is called while the outcome isn't known."""

    def __init__(self, address, poi, path, name, tls=None, on_show=None, on_print=None, on_wait=None):
        self.address, self.poi, self.tls = address, poi, tls
        self.memory = Memory(path, name)
        self.on_show, self.on_print, self.on_wait = on_show, on_print, on_wait
        self.connection, self.asked = None, 0
        self.is_to_stop = threading.Event()

    # --- what a cashier does

    def pay(self, cents, currency, transaction, patience=PATIENCE):
        """`transaction` is the sale's own number at this till."""
        stamp = datetime.datetime.now(datetime.timezone.utc).isoformat()
        sale = {"SaleTransactionID": {"TransactionID": transaction, "TimeStamp": stamp}}
        amounts = {"Currency": currency, "RequestedAmount": cents / 100}
        return self._begin("Payment", {"SaleData": sale, "PaymentTransaction": {"AmountsReq": amounts}}, patience)

    def reverse(self, transaction, cents=None, patience=PATIENCE):
        """Gives a whole payment back; `transaction` and `cents` are those of the payment's reply. Without `cents` nothing checks that it is that
        payment."""
        body = {"OriginalPOITransaction": {"POITransactionID": {"TransactionID": transaction}}, "ReversalReason": "MerchantCancel"}
        if cents is not None:
            body["ReversedAmount"] = cents / 100
        return self._begin("Reversal", body, patience)

    def reconcile(self, kind="SaleReconciliation", patience=PATIENCE):
        return self._begin("Reconciliation", {"ReconciliationType": kind}, patience)

    @property
    def request(self):
        """The request that has no end yet, or whose end wasn't confirmed, with its category and its body; None if there is no such request."""
        return self.memory.value["open"]

    def resume(self, patience=PATIENCE):
        """What became of that request, as after a restart of the till; None if there is no such request. It asks by a status, which begins nothing.
        Unknown with the condition NotAccepted: the gateway hasn't accepted it so far. Then the cashier chooses `repeat` or `stop`."""
        request = self.request
        if not request:
            return None
        if "reply" in request:
            return Reply(request["reply"])
        end, lost = time.monotonic() + patience, 0
        while True:
            try:
                known, lost = self._known(request), 0
                if known.is_recorded():
                    # on record, so that no terminal is asked again: its reply says whether it is that of this sale
                    return self._carry_out(request, patience, time.monotonic() + STRAY)
                if known.condition == "NotFound":
                    return Reply(NOT_ACCEPTED)
            except Lost:
                self._give_up()
                lost += 1
            pause = PAUSES[min(lost, len(PAUSES)) - 1] if lost else AGAIN
            if time.monotonic() + pause >= end:
                return Reply({})
            if self.on_wait:
                self.on_wait(patience - (end - time.monotonic()))
            # `abort` is heard at once
            (time.sleep if self.is_to_stop.is_set() else self.is_to_stop.wait)(pause)

    def repeat(self, patience=PATIENCE):
        """Sends that request again, which begins it if it wasn't accepted."""
        self.is_to_stop.clear()
        return self._again(patience)

    def stop(self, patience=PATIENCE):
        """Sends that request again, each time with an Abort right after it, until it has an end. It may be a Success: then it was too late."""
        self.is_to_stop.set()
        return self._again(patience)

    def done(self):
        """Your own books have the end that was returned: the next request may begin."""
        request = self.request
        if request and "reply" not in request:
            raise Unfinished("%(category)s %(service)s" % request)
        self.memory.value["open"] = None
        self.memory.write()

    def abort(self):
        """Asks the gateway to stop the request that is being carried out or resumed, from another thread. Its own reply says what became of it."""
        self.is_to_stop.set()

    # --- what is asked beside

    def diagnose(self):
        """OK, Busy, Unreachable or Maintenance; Unknown where the gateway has no such terminal."""
        return self._ask("Diagnosis", {}).get("POIStatus", {}).get("GlobalStatus", "Unknown")

    def login(self, poi=None):
        return Reply(self._ask("Login", {}, poi))

    def logout(self):
        return Reply(self._ask("Logout", {}))

    def status(self, service, sale=None, poi=None):
        """The reply to the request with this ServiceID, by a status; one that isn't known has the condition NotFound."""
        body = self._ask("TransactionStatus", {"MessageReference": {"ServiceID": service, "SaleID": sale or self.memory.value["sale"]}}, poi)
        repeated = body.get("RepeatedMessageResponse", {}).get("RepeatedResponseMessageBody")
        return Reply(next(iter(repeated.values())) if repeated else body)

    def close(self):
        if self.connection:
            self.connection.close()
        self.connection = None

    # --- how a request is carried out

    def _again(self, patience):
        request = self.request
        if not request or "reply" in request:
            return self.resume()
        return self._carry_out(request, patience, time.monotonic() + STRAY)

    def _known(self, request):
        """What a status says of the request. An Abort follows where it is to be stopped: it ends nothing that isn't known."""
        known = self.status(request["service"], poi=request["poi"])
        if known.condition == "InProgress" and self.is_to_stop.is_set():
            self._send_abort(request)
        return known

    def _begin(self, category, body, patience):
        self.is_to_stop.clear()
        self.memory.begin(self.poi, category, body)
        return self._carry_out(self.memory.value["open"], patience, 0)

    def _carry_out(self, request, patience, doubtful):
        """Sends the request, again and again and each time the same, until it has an end. Until `doubtful` a refusal isn't one: what was sent
        on a lost connection may still arrive, and be accepted."""
        end, lost = time.monotonic() + patience, 0
        is_sent = doubtful > 0
        while True:
            self.has_sent = False
            try:
                reply, lost = self._attempt(request, end), 0
            except Lost:
                self._give_up()
                reply, lost = Reply({}), lost + 1
                doubtful = time.monotonic() + STRAY if self.has_sent else doubtful
            is_sent = is_sent or self.has_sent
            pause = PAUSES[min(lost, len(PAUSES)) - 1] if lost else BUSY
            is_late = time.monotonic() + pause >= end
            is_certain = time.monotonic() >= doubtful or request["category"] == "Reconciliation"
            is_final = is_late or reply.condition not in ("Busy", "LoggedOut")
            if reply.is_recorded() or reply.is_refusal() and is_certain and is_final:
                return self._end(request, reply)
            if is_late:
                return Reply({}) if is_sent else self._end(request, Reply(NOT_SENT))
            time.sleep(pause)

    def _attempt(self, request, end):
        """The next reply to the request other than InProgress, on one connection; an unknown one at the end of patience."""
        self._connect()
        self.has_sent = True
        self._send_open(request)
        began = heard = time.monotonic()
        again, is_pinged, is_stopped = began + SILENCE, False, False
        while time.monotonic() < end:
            if time.monotonic() >= again:
                self._send_open(request)
                # an Abort goes out right after each sending of a request that is stopped
                again, is_stopped = time.monotonic() + SILENCE, False
            if self.is_to_stop.is_set() and not is_stopped:
                self._send_abort(request)
                is_stopped = True
            message = self.connection.receive(0.2)
            now = time.monotonic()
            if message is None:
                if now >= heard + PING + AT_ONCE:
                    raise Lost("the gateway is silent")
                if now >= heard + PING and not is_pinged:
                    self._send("Diagnosis", self._own_number(), {})
                    is_pinged = True
                continue
            heard, is_pinged = now, False
            reply = self._reply_in(message, request)
            # a refusal isn't the end while another sending has no reply: that one may have been accepted
            if reply and reply.condition != "InProgress" and (reply.is_recorded() or self.connection.owed <= 0):
                return self._checked(request, reply)
            if reply:
                again = now + AGAIN
                if self.on_wait:
                    self.on_wait(now - began)
        return Reply({})

    def _reply_in(self, message, request):
        """The reply to the request, if this message is it. One that can't be read is refused each time."""
        try:
            body = self._take(message, request["category"], request["service"])
        except Rejected as fault:
            self.connection.owed -= 1
            body = {"Response": {"Result": "Failure", "ErrorCondition": "MessageFormat", "AdditionalResponse": str(fault)}}
        return None if body is None else Reply(body)

    def _checked(self, request, reply):
        """The reply, if it is that of this sale: under a ServiceID that was used before it is the first one's, or NotAllowed."""
        if reply.condition == "LoggedOut":
            self.login(request["poi"])
        if request["category"] != "Payment":
            return reply
        is_refused = reply.condition == "NotAllowed" and not reply.is_recorded()
        is_used = is_refused and self.status(request["service"], poi=request["poi"]).condition != "NotFound"
        if is_used or reply.body.get("SaleData", request["body"]["SaleData"]) != request["body"]["SaleData"]:
            self.memory.renew()
            self._give_up()
            raise Used("ServiceID %s was used for another sale: this one isn't paid" % request["service"])
        return reply

    def _end(self, request, reply):
        """The request has this end, which stays in the file until `done`."""
        request["reply"] = json.loads(json.dumps(reply.body, default=str))
        self.memory.write()
        return reply

    def _send_open(self, request):
        self.connection.owed += 1
        self._send(request["category"], request["service"], request["body"], request["poi"])

    def _send_abort(self, request):
        self._send("Abort", self._own_number(), {"MessageReference": {"ServiceID": request["service"]}}, request["poi"])

    # --- one message

    def _ask(self, category, body, poi=None):
        """The body of the reply to a request that gets it at once."""
        try:
            self._connect()
            service = self._own_number()
            self._send(category, service, body, poi)
            end = time.monotonic() + AT_ONCE
            while time.monotonic() < end:
                message = self.connection.receive(end - time.monotonic())
                found = message and self._take(message, category, service)
                if found:
                    return found
            raise Lost("no reply to a %s" % category)
        except Lost:
            self._give_up()
            raise

    def _own_number(self):
        """A ServiceID that no payment, reversal or reconciliation of this till has."""
        self.asked += 1
        return "q%d" % (self.asked % 10**8)

    def _send(self, category, service, body, poi=None):
        header = {"ProtocolVersion": "3.0", "MessageClass": "Service", "MessageCategory": category, "MessageType": "Request"}
        header.update(ServiceID=service, SaleID=self.memory.value["sale"], POIID=poi or self.poi)
        self.connection.send({"SaleToPOIRequest": {"MessageHeader": header, category + "Request": body}})

    def _take(self, message, category, service):
        """The body of this message if it is the reply to that request. What the terminal shows and prints is handed on."""
        (kind, content), = message.items()
        header = content["MessageHeader"]
        if kind == "SaleToPOIResponse":
            its = (header["MessageCategory"], header.get("ServiceID"))
            if self.request and its == (self.request["category"], self.request["service"]):
                self.connection.owed -= 1
            return content[category + "Response"] if its == (category, service) else None
        if "EventNotification" in content and content["EventNotification"]["EventDetails"] != "abort":
            raise Rejected(content["EventNotification"]["EventDetails"])
        if "DisplayRequest" in content and self.on_show:
            self.on_show(content["DisplayRequest"]["DisplayOutput"][0]["OutputContent"]["OutputText"][0]["Text"])
        if "PrintRequest" in content and self.on_print:
            self.on_print([line["Text"] for line in content["PrintRequest"]["PrintOutput"]["OutputContent"]["OutputText"]])
        return None

    def _connect(self):
        if not self.connection:
            self.connection = Connection(self.address, self.tls)

    def _give_up(self):
        self.close()
