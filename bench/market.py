#!/usr/bin/env python3
"""market.py [PROGRAM [MEGABYTES]]: times pegmarket on a generated session and measures its memory. It is no part of the gate.

Run it at the top of the repository behind `./build pegmarket`. The session has snapshots of two symbols, each with a bid and an
offer of two markets, as many as make MEGABYTES (100 if none is named).
"""
import os
import subprocess
import sys
import tempfile
import time

CONFIG = b"PEGV 1\nMARKET N\nMARKET P\nSYMBOL X 100\nSYMBOL Y 100\nBEGIN 20240102-14:30:00.000\n"
LOGON = b"35=A|49=SIP|56=PEGV|34=1|52=20240102-14:30:00|98=0|108=30|1137=9|"


def frame(text):
    body = text.replace(b"|", b"\x01")
    head = b"8=FIXT.1.1\x019=%d\x01" % len(body)
    return head + body + b"10=%03d\x01" % (sum(head + body) % 256)


def snapshot(number):
    cents = 1000 + number % 50
    price = b"%d.%02d" % divmod(cents, 100)
    above = b"%d.%02d" % divmod(cents + 1, 100)
    return frame(
        b"35=W|49=SIP|56=PEGV|34=%d|52=20240102-14:30:%02d.%03d|55=%s|268=4|269=0|270=%s|271=500|275=N|269=1|270=%s|271=200|275=N"
        b"|269=0|270=%s|271=300|275=P|269=1|270=%s|271=100|275=P|"
        % (number, number // 50000 % 60, number // 50 % 1000, b"XY"[number % 2:number % 2 + 1], price, above, price, above)
    )


def main():
    program = sys.argv[1] if len(sys.argv) > 1 else "bin/pegmarket"
    size = int(sys.argv[2] if len(sys.argv) > 2 else 100) * 1_000_000
    with tempfile.TemporaryDirectory() as folder:
        config, source = f"{folder}/config", f"{folder}/input"
        with open(config, "wb") as out:
            out.write(CONFIG)
        written, number = 0, 1
        with open(source, "wb") as out:
            written += out.write(frame(LOGON))
            while written < size:
                number += 1
                written += out.write(snapshot(number))
        for _ in range(3):
            with open(f"{folder}/feed", "wb") as out:
                start = time.monotonic()
                child = subprocess.Popen([program, config, "SIP", source], stdout=out)
                _, status, usage = os.wait4(child.pid, 0)
                seconds = time.monotonic() - start
                child.returncode = os.waitstatus_to_exitcode(status)
            print(
                f"{program}: exit {child.returncode}, {number - 1} snapshots, {written / 1e6:.0f} MB in {seconds:.2f} s, "
                f"{written / 1e6 / seconds:.0f} MB/s, {usage.ru_maxrss / 1e3:.1f} MB of memory, feed {os.path.getsize(folder + '/feed') / 1e6:.0f} MB"
            )


main()
