#!/usr/bin/env python3
"""serve.py [PROGRAM]: measures pegserve (bin/pegserve if none is named) on loopback. It is no part of the gate.

For 1, 8 and 64 connections: the time from an order's last byte to its acknowledgement's first byte, with one order on its way for each
connection, and how many orders come through in a second, sent as fast as they are taken. Then the processor time of the venue while 64
connections are idle for ten seconds. The client is one Python process, and its own time is in the figures.
"""
import os
import selectors
import subprocess
import sys
import tempfile
import time

from fix_client import Client

SYMBOLS = 16
PORT = 17100


def write_config(path, members):
    with open(path, "w") as out:
        print("PEGV 1", file=out)
        for member in range(members):
            print(f"MEMBER M{member}", file=out)
        print("MARKET N", file=out)
        for symbol in range(SYMBOLS):
            print(f"SYMBOL S{symbol} 131072", file=out)
        print("BEGIN 20240102-14:30:00.000", file=out)


class Venue:
    """A running venue with this many clients, all logged on."""

    def __init__(self, program, folder, connections, port):
        config = os.path.join(folder, f"config{connections}")
        write_config(config, connections)
        self.process = subprocess.Popen([program, config, f"127.0.0.1:{port}", str(connections)], stdout=subprocess.DEVNULL)
        time.sleep(0.5)
        self.clients = [Client(f"M{k}", ("127.0.0.1", port)) for k in range(connections)]
        self.selector = selectors.DefaultSelector()
        for client in self.clients:
            client.connect()
            client.logon()
            self.selector.register(client.connection, selectors.EVENT_READ, client)
        while not all(client.up for client in self.clients):
            for key, _ in self.selector.select(5):
                key.data.receive()

    def processor_seconds(self):
        with open(f"/proc/{self.process.pid}/stat") as stat:
            fields = stat.read().rsplit(")", 1)[1].split()
        return (int(fields[11]) + int(fields[12])) / os.sysconf("SC_CLK_TCK")

    def end(self):
        for client in self.clients:
            client.close()
        self.process.wait(60)


def order(client, k):
    number = int(client.member[1:])
    return client.order(b"o%d" % k, b"S%d" % ((number + k) % SYMBOLS), b"1", 100, b"40=2\x0144=1.00\x01")


def latency(venue, rounds):
    """The times of single orders in microseconds, one on its way for each connection."""
    times, sent, count = [], {}, {}
    for client in venue.clients:
        count[client] = 0
        client.send(order(client, 0))
        sent[client] = time.perf_counter()
    while sent:
        for key, _ in venue.selector.select(5):
            client = key.data
            now = time.perf_counter()
            if not client.receive() or client not in sent:
                continue
            times.append((now - sent.pop(client)) * 1e6)
            count[client] += 1
            if count[client] < rounds:
                client.send(order(client, count[client]))
                sent[client] = time.perf_counter()
    return sorted(times)


def load(venue, orders):
    """How many orders a second, with all frames made before the clock starts."""
    each = orders // len(venue.clients)
    frames = {client: b"".join(order(client, 1_000_000 + k) for k in range(each)) for client in venue.clients}
    missing = {client: each for client in venue.clients}
    for client in venue.clients:
        venue.selector.modify(client.connection, selectors.EVENT_READ | selectors.EVENT_WRITE, client)
    start = time.perf_counter()
    while any(missing.values()):
        for key, ready in venue.selector.select(5):
            client = key.data
            if ready & selectors.EVENT_WRITE:
                try:
                    frames[client] = frames[client][client.connection.send(frames[client][:1 << 16]):]
                except BlockingIOError:
                    pass
                if not frames[client]:
                    venue.selector.modify(client.connection, selectors.EVENT_READ, client)
            if ready & selectors.EVENT_READ:
                piece = client.pull()
                missing[client] -= (piece or b"").count(b"\x01150=")
    return each * len(venue.clients) / (time.perf_counter() - start)


def main():
    program = sys.argv[1] if len(sys.argv) > 1 else "bin/pegserve"
    with tempfile.TemporaryDirectory() as folder:
        for place, connections in enumerate([1, 8, 64]):
            venue = Venue(program, folder, connections, PORT + place)
            times = latency(venue, 2_000 // connections + 100)
            rate = load(venue, 64_000)
            if connections == 64:
                before = venue.processor_seconds()
                time.sleep(10)
                idle = venue.processor_seconds() - before
            venue.end()
            print(f"{connections:3} connections: median {times[len(times) // 2]:6.0f} us, 99th percentile {times[len(times) * 99 // 100]:6.0f} us, "
                  f"{rate:9,.0f} orders a second")
        print(f" 64 idle connections: {idle / 10 * 100:.2f} % of a processor")


if __name__ == "__main__":
    main()
