"""The feeds of a day at the desk: a program that writes lines to the desk, and a source of FIX market data for pegfeed."""
import socket
import threading
import time

from fix_client import FRAME, fields_of, framed, stamp

# How often a feed says what its market quotes, in seconds.
BEAT = 0.2


class Feed:
    """A market whose quotes go out again and again, by a thread, until it is paused."""

    def __init__(self, market, quotes):
        self.market, self.quotes = market, dict(quotes)
        self.paused, self.ended = threading.Event(), threading.Event()
        self.guard = threading.Lock()

    def begin(self):
        threading.Thread(target=self.go_on, daemon=True).start()

    def go_on(self):
        while not self.ended.wait(BEAT):
            if not self.paused.is_set():
                with self.guard:
                    self.put_all()

    def put_all(self):
        raise NotImplementedError


class LineFeed(Feed):
    """Writes `Q` lines to the desk by a connection of its own, and connects again where that ends."""

    def __init__(self, market, quotes, desk):
        super().__init__(market, quotes)
        self.desk, self.connection, self.connections = desk, None, 0
        # How many lines were taken, and what became of the others.
        self.taken, self.refused = 0, []

    def say(self, line):
        """What a line is answered, or None where nobody listens."""
        try:
            if not self.connection:
                self.connection = socket.socket(socket.AF_UNIX)
                self.connection.settimeout(5)
                self.connection.connect(self.desk)
                self.connections += 1
            self.connection.sendall(line.encode() + b"\n")
            answer = b""
            while not answer.endswith(b"\n"):
                piece = self.connection.recv(1024)
                if not piece:
                    raise ConnectionError
                answer += piece
        except OSError:
            self.connection.close()
            self.connection = None
            return None
        return answer.decode().rstrip("\n")

    def ask(self, line):
        """The same, from another thread than that of the quotes."""
        with self.guard:
            return self.say(line)

    def put_all(self):
        for symbol, (bid, offer) in self.quotes.items():
            answer = self.say(f"Q {symbol} {self.market} {bid} {offer}")
            if answer == "OK":
                self.taken += 1
            elif answer is not None:
                self.refused.append(answer)

    def end(self):
        self.ended.set()


class SourceFeed(Feed):
    """A source of FIX market data that listens at a port: it answers a Logon, and then sends snapshots of its market."""

    def __init__(self, market, quotes):
        super().__init__(market, quotes)
        self.door = socket.create_server(("127.0.0.1", 0))
        self.port = self.door.getsockname()[1]
        self.connection, self.logons, self.number, self.names = None, 0, 1, (b"", b"")
        threading.Thread(target=self.take_all, daemon=True).start()

    def take_all(self):
        while not self.ended.is_set():
            try:
                connection, _ = self.door.accept()
            except OSError:
                return
            threading.Thread(target=self.serve, args=(connection,), daemon=True).start()

    def serve(self, connection):
        unread = b""
        while True:
            try:
                piece = connection.recv(1 << 16)
            except OSError:
                return
            if not piece:
                return
            unread += piece
            while (found := FRAME.match(unread)) and len(unread) >= found.end() + int(found[1]) + 7:
                end = found.end() + int(found[1]) + 7
                with self.guard:
                    self.work(connection, dict(reversed(fields_of(unread[:end]))))
                unread = unread[end:]

    def work(self, connection, fields):
        if fields[b"35"] == b"A":
            self.names, self.number, self.connection = (fields[b"56"], fields[b"49"]), 1, connection
            self.logons += 1
            reset = b"141=Y\x01" if fields.get(b"141") == b"Y" else b""
            self.send(b"A", b"98=0\x01108=%s\x01" % fields[b"108"] + reset + b"1137=9\x01")
        elif fields[b"35"] == b"1":
            self.send(b"0", b"112=%s\x01" % fields[b"112"])

    def send(self, kind, body):
        head = b"35=%s\x0149=%s\x0156=%s\x0134=%d\x0152=%s\x01" % (kind, *self.names, self.number, stamp())
        self.number += 1
        try:
            self.connection.sendall(framed(head + body))
        except OSError:
            self.connection = None

    def put_all(self):
        for symbol, (bid, offer) in self.quotes.items():
            if self.connection:
                entries = b"".join(b"269=%s\x01270=%s\x01271=100\x01275=%s\x01" % (kind, price.encode(), self.market.encode())
                                   for kind, price in ((b"0", bid), (b"1", offer)))
                self.send(b"W", b"55=%s\x01268=2\x01" % symbol.encode() + entries)

    def send_bad(self):
        """A snapshot of a symbol that is not configured, and one whose bid has no price."""
        with self.guard:
            self.send(b"W", b"55=NONE\x01268=1\x01269=0\x01270=1.00\x01275=%s\x01" % self.market.encode())
            self.send(b"W", b"55=ABC\x01268=1\x01269=0\x01275=%s\x01" % self.market.encode())

    def break_off(self):
        with self.guard:
            if self.connection:
                self.connection.shutdown(socket.SHUT_RDWR)
                self.connection = None

    def end(self):
        self.ended.set()
        self.door.close()


def wait_until(holds, seconds, pump):
    """Whether something held within so many seconds; what comes meanwhile is worked by `pump`."""
    until = time.monotonic() + seconds
    while time.monotonic() < until:
        if holds():
            return True
        pump()
    return holds()
