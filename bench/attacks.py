"""Hostile ways to use a live venue. Each attack is a function of the venue's port and its length in seconds, and says what became of it."""
import random
import resource
import select
import socket
import time

from fix_client import Client, framed, stamp

# A frame that a stranger begins and does not end: a Logon with a field that goes on and on.
ENDLESS = b"8=FIXT.1.1\x019=8000\x0135=A\x0149=BAD\x0156=PEGV\x0134=1\x0158="
# What a stranger may take: he is let go after half a minute.
PATIENCE = 45
HISTORY = 30_000


class Wrong(Exception):
    """What the venue should not have done, as a sentence."""


def connect(port):
    return socket.create_connection(("127.0.0.1", port), timeout=10)


def is_closed(connection):
    """Whether the other side closed it. What it sent before is a fault: strangers are sent nothing."""
    try:
        piece = connection.recv(1 << 16)
    except BlockingIOError:
        return False
    except OSError:
        return True
    if piece:
        raise Wrong(f"a stranger was answered: {piece[:60]!r}")
    return True


def pour(port, first, filler, seconds):
    """Connects again and again, and sends as much as is taken. How many bytes over how many connections."""
    end, taken, connections = time.monotonic() + seconds, 0, 0
    while time.monotonic() < end:
        with connect(port) as stranger:
            connections += 1
            stranger.setblocking(False)
            left = first
            while time.monotonic() < end and not is_closed(stranger):
                try:
                    count = stranger.send(left or filler)
                    taken += count
                    left = left[count:]
                except BlockingIOError:
                    select.select([stranger], [stranger], [], 0.1)
                except OSError:
                    break
    return f"{taken / 1e6:,.1f} MB over {connections} connections were taken or dropped"


def noise_before_a_logon(port, seconds):
    """A stranger sends noise, as fast as it is taken."""
    return pour(port, b"", random.Random(1).randbytes(1 << 16), seconds)


def endless_frame_before_a_logon(port, seconds):
    """A stranger begins a frame of 8,000 bytes and goes on and on, again and again."""
    return pour(port, ENDLESS, b"x" * (1 << 16), seconds)


def one_byte_a_second(port, _):
    """A stranger sends a frame by one byte a second."""
    begun = time.monotonic()
    with connect(port) as stranger:
        stranger.setblocking(False)
        for byte in ENDLESS * 2:
            if is_closed(stranger):
                return f"let go after {time.monotonic() - begun:.0f} s"
            if time.monotonic() > begun + PATIENCE:
                break
            try:
                stranger.send(bytes([byte]))
            except OSError:
                return f"let go after {time.monotonic() - begun:.0f} s"
            time.sleep(1)
    raise Wrong(f"he was not let go within {PATIENCE} s")


def crowd(port, count, seconds):
    """So many strangers connect and say nothing. How many could, and when the last was let go."""
    resource.setrlimit(resource.RLIMIT_NOFILE, (resource.getrlimit(resource.RLIMIT_NOFILE)[1],) * 2)
    strangers, refused, begun = [], 0, time.monotonic()
    for _ in range(count):
        try:
            stranger = socket.socket()
            stranger.settimeout(2)
            stranger.connect(("127.0.0.1", port))
            stranger.setblocking(False)
            strangers.append(stranger)
        except OSError:
            refused += 1
    there = len(strangers)
    while strangers and time.monotonic() < begun + max(seconds, PATIENCE + 15):
        left = []
        for stranger in strangers:
            if is_closed(stranger):
                stranger.close()
            else:
                left.append(stranger)
        strangers = left
        time.sleep(0.2)
    for stranger in strangers:
        stranger.close()
    if strangers:
        raise Wrong(f"{len(strangers)} of {count} strangers were not let go")
    return f"{there} connected, {refused} could not; all were let go after {time.monotonic() - begun:.0f} s"


def three_thousand_connect(port, seconds):
    """3,000 strangers connect and say nothing."""
    return crowd(port, 3_000, seconds)


def ten_thousand_connect(port, seconds):
    """10,000 strangers connect and say nothing."""
    return crowd(port, 10_000, seconds)


def few_descriptors(port, seconds):
    """200 strangers connect where the venue has 40 descriptors."""
    return crowd(port, 200, seconds)


def log_on(port, room=0):
    """The bad member, logged on; with a small buffer for what comes where room is given."""
    bad = Client("BAD", ("127.0.0.1", port))
    bad.connect()
    if room:
        bad.connection.setsockopt(socket.SOL_SOCKET, socket.SO_RCVBUF, room)
    bad.logon()
    wait(bad, lambda: bad.up)
    return bad


def wait(member, holds, seconds=60):
    end = time.monotonic() + seconds
    while not holds():
        if not select.select([member.connection], [], [], 0.05)[0] and time.monotonic() > end:
            raise Wrong("what was due did not come")
        if member.receive() is None:
            raise Wrong("the member's connection was ended")


def ask_without_reading(port, read_every, seconds):
    """Sends TestRequests as fast as they are taken, and reads a byte as seldom as said. What was sent, and whether the connection was ended."""
    bad = log_on(port, room=4096)
    bad.connection.setblocking(False)
    begun, sent, asked, last = time.monotonic(), 0, b"", time.monotonic()
    while time.monotonic() < begun + seconds:
        asked = asked or b"".join(bad.message(b"1", b"112=%s\x01" % (b"x" * 60)) for _ in range(50))
        try:
            count = bad.connection.send(asked)
            sent, asked = sent + count, asked[count:]
        except BlockingIOError:
            time.sleep(0.05)
        except OSError:
            bad.close()
            return f"let go after {time.monotonic() - begun:.0f} s, with {sent / 1e6:,.1f} MB taken"
        if read_every and time.monotonic() > last + read_every:
            last = time.monotonic()
            try:
                if not bad.connection.recv(1):
                    return f"let go after {time.monotonic() - begun:.0f} s, with {sent / 1e6:,.1f} MB taken"
            except BlockingIOError:
                pass
            except OSError:
                return f"let go after {time.monotonic() - begun:.0f} s, with {sent / 1e6:,.1f} MB taken"
    bad.close()
    return f"still there after {seconds:.0f} s, with {sent / 1e6:,.1f} MB taken"


def a_member_reads_nothing(port, seconds):
    """A member sends TestRequests as fast as they are taken, and reads none of the answers."""
    return ask_without_reading(port, None, max(seconds, PATIENCE))


def a_member_reads_a_byte_a_second(port, seconds):
    """A member sends TestRequests as fast as they are taken, and reads one byte of the answers a second."""
    return ask_without_reading(port, 1, max(seconds, PATIENCE))


def make_history(port, count=HISTORY):
    """The bad member sends so many orders and reads their acknowledgements."""
    bad = log_on(port)
    sent = 0
    while sent < count:
        batch = min(500, count - sent)
        bad.send(b"".join(bad.order(b"h%d" % (sent + at), b"ABC", b"1", 100, b"40=2\x0144=1.00\x01") for at in range(batch)))
        sent += batch
        wait(bad, lambda: len(bad.reports) >= sent)
    return bad


def one_resend_request(port, _, bad):
    """A member of 30,000 reports asks for all of them once, and reads them: he is no attacker, and is to get them."""
    begun, came, quiet = time.monotonic(), b"", time.monotonic()
    bad.send(bad.message(b"2", b"7=1\x0116=0\x01"))
    count = 0
    while count < HISTORY and time.monotonic() < quiet + 30:
        piece = bad.pull()
        if piece is None:
            raise Wrong(f"his connection was ended when {count:,} of them had come")
        if piece:
            quiet = time.monotonic()
            came = came[-20:] + piece
            count += came.count(b"\x01150=0\x01") - came[:20].count(b"\x01150=0\x01")
        else:
            select.select([bad.connection], [], [], 0.05)
    if count < HISTORY:
        raise Wrong(f"{count:,} of them came, and no more within 30 s")
    return f"all came within {time.monotonic() - begun:.1f} s"


def many_resend_requests(port, _, bad):
    """A member of 30,000 reports sends 38 ResendRequests of all of them in one write, and reads what comes."""
    asked = b"".join(bad.message(b"2", b"7=1\x0116=0\x01") for _ in range(38))
    begun, came, quiet = time.monotonic(), 0, time.monotonic()
    bad.connection.setblocking(True)
    bad.connection.sendall(asked)
    bad.connection.setblocking(False)
    # The first answer may take long; then nothing for some seconds is the end.
    while time.monotonic() < quiet + (5 if came else 60):
        piece = bad.pull()
        if piece is None:
            return f"{len(asked):,} bytes were answered by {came / 1e6:,.0f} MB, then his connection was ended"
        if piece:
            came, quiet = came + len(piece), time.monotonic()
        else:
            select.select([bad.connection], [], [], 0.05)
    return f"{len(asked):,} bytes were answered by {came / 1e6:,.0f} MB within {quiet - begun:.1f} s"


def many_resend_requests_unread(port, seconds, bad):
    """A member of 30,000 reports sends 38 ResendRequests of all of them in one write, and reads nothing."""
    bad.send(b"".join(bad.message(b"2", b"7=1\x0116=0\x01") for _ in range(38)))
    end = time.monotonic() + max(seconds, PATIENCE)
    while time.monotonic() < end:
        time.sleep(0.2)
        try:
            bad.connection.send(b"")
        except OSError:
            break
    return "he reads nothing meanwhile"


def a_replaying_peer(port, seconds):
    """A peer sends messages with numbers that are far too high, and then what it sent on its first connection again and again."""
    bad = log_on(port)
    kept, asked, begun = [], 0, time.monotonic()
    bad.next_out += 1_000
    while time.monotonic() < begun + seconds / 2 and bad.connection:
        frames = [bad.order(b"r%d-%d" % (bad.next_out, at), b"ABC", b"1", 100) for at in range(50)]
        kept = kept or frames
        try:
            bad.send(b"".join(frames))
        except OSError:
            break
        came = bad.pull()
        if came is None:
            break
        asked += came.count(b"\x0135=2\x01")
    bad.close()
    logon, turns = framed(b"35=A\x0149=BAD\x0156=PEGV\x0134=1\x0152=%s\x0198=0\x01108=30\x011137=9\x01" % stamp()), 0
    while time.monotonic() < begun + seconds:
        with connect(port) as peer:
            peer.settimeout(1)
            try:
                peer.sendall(logon + b"".join(kept))
                while peer.recv(1 << 16):
                    pass
            except OSError:
                pass
        turns += 1
    return f"{bad.next_out - 1_000} messages too high were answered by {asked} ResendRequests; then {turns} replays"
