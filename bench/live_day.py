"""What the scripts beside it share that run a live venue: its process, its journal, and what pegreplay makes of that."""
import os
import pathlib
import signal
import socket
import subprocess
import sys
import tempfile
import time

TOP = pathlib.Path(__file__).resolve().parent.parent


def scratch_folder():
    """A temporary folder on the disk of the repository, where git doesn't look."""
    (TOP / "bin").mkdir(exist_ok=True)
    return tempfile.TemporaryDirectory(dir=TOP / "bin")


def free_port():
    with socket.create_server(("127.0.0.1", 0)) as held:
        return held.getsockname()[1]


def journal_lines(path):
    """The lines of a journal, as docs/day-journal.md says how one is read."""
    data = pathlib.Path(path).read_bytes() if os.path.exists(path) else b""
    lines, at = [], 0
    if len(data) <= 1:
        return lines
    while data[at] == 1:
        count = int.from_bytes(data[at + 1:at + 5], "big")
        if count > 16_384 or at + 5 + count >= len(data):
            sys.exit(f"damage at {at}")
        lines.append(data[at + 5:at + 5 + count])
        at += 5 + count
    return lines


def unescaped(text):
    """The bytes that the text of a line stands for."""
    out, at = bytearray(), 0
    while at < len(text):
        if text[at] == 0x7C:
            out.append(1)
        elif text[at] == 0x5C:
            out.append(int(text[at + 1:at + 3], 16))
            at += 2
        else:
            out.append(text[at])
        at += 1
    return bytes(out)


def transcript_by_member(lines, folder, replay=TOP / "bin/pegreplay"):
    """Of each member the frames that pegreplay prints of these lines, in order."""
    script = pathlib.Path(folder) / "day.script"
    script.write_bytes(b"".join(line + b"\n" for line in lines))
    done = subprocess.run([replay, script], stdout=subprocess.PIPE, stderr=subprocess.PIPE, check=False)
    if done.returncode != 0:
        sys.exit(f"pegreplay ended with {done.returncode}: {done.stderr!r}")
    frames = {}
    for line in done.stdout.split(b"\n")[:-1]:
        name, text = line.split(b" ", 1)
        frames.setdefault(name.decode(), []).append(unescaped(text))
    return frames


def wrong_run(runs, due):
    """Of a member's connections the first whose frames are no run of those that are due to him, after those of the connection before; or None."""
    at = 0
    for run in filter(None, runs):
        while at < len(due) and due[at] != run[0]:
            at += 1
        if due[at:at + len(run)] != run:
            return run[0]
        at += len(run)
    return None


def asked_ids(lines):
    """All ClOrdIDs in the bytes that the members sent, as the journal has them."""
    asked = {}
    for line in lines:
        if line.startswith(b"B "):
            name, text = line[2:].split(b" ", 1)
            asked.setdefault(name, bytearray()).extend(unescaped(text))
    text = b"".join(bytes(part) for part in asked.values())
    return {field[3:] for field in text.split(b"\x01") if field.startswith(b"11=")}


class Venue:
    """A peglive that runs over a config and a journal in a folder, with an operator's connection. A market may say nothing for `stale` seconds, or for ever."""

    def __init__(self, config, journal, port, desk, program=TOP / "bin/peglive", words=(), stale=0):
        self.words = [str(program), "--stale", str(stale), *words, str(config), str(journal), f"127.0.0.1:{port}", str(desk)]
        self.port, self.desk_path, self.process, self.desk = port, str(desk), None, None

    def start(self, log=subprocess.DEVNULL):
        """Starts it, and waits until it listens. How long that took, in seconds."""
        begun = time.monotonic()
        self.process = subprocess.Popen(self.words, stderr=log)
        while time.monotonic() - begun < 60:
            if self.process.poll() is not None:
                sys.exit(f"peglive ended with {self.process.returncode}")
            try:
                self.desk = socket.socket(socket.AF_UNIX)
                self.desk.connect(self.desk_path)
                return time.monotonic() - begun
            except OSError:
                self.desk.close()
                time.sleep(0.005)
        sys.exit("peglive does not listen")

    def say(self, *words):
        """Says words at the desk. Answers that came to earlier ones are dropped."""
        try:
            while self.desk.recv(1 << 16, socket.MSG_DONTWAIT):
                pass
        except BlockingIOError:
            pass
        self.desk.sendall("".join(f"{word}\n" for word in words).encode())

    def ask(self, word):
        """Says a word at the desk. What it is answered."""
        self.say(word)
        answer = b""
        while not answer.endswith(b"\n"):
            piece = self.desk.recv(1024)
            if not piece:
                break
            answer += piece
        return answer.decode().rstrip("\n")

    def kill(self):
        os.kill(self.process.pid, signal.SIGKILL)
        self.process.wait()
        self.desk.close()

    def stop(self):
        """Stops it by its desk. Its exit."""
        self.say("STOP")
        code = self.process.wait(timeout=60)
        self.desk.close()
        return code
