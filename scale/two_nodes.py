"""A Slurm of two nodes on one machine, in a folder of its own: munge, a controller, and a daemon for each node on ports of 127.0.0.1.

Nothing of the system's own Slurm is read or changed. What was started carries a word of its own in its environment, by which it is found again to be
ended: no other process is touched.
"""
import os
import shutil
import signal
import socket
import subprocess
import time
from pathlib import Path

NODES = ("one", "two")
MARK = "SCALE_TRIAL"
# slurmstepd walks all descriptors that it may have, and times out where these are many.
DESCRIPTORS = 4096
CONFIG = """\
ClusterName=trial
SlurmctldHost={host}(127.0.0.1)
SlurmctldPort={ports[0]}
SlurmUser={user}
SlurmdUser={user}
AuthType=auth/munge
AuthInfo=socket={folder}/munge.socket
CredType=cred/munge
StateSaveLocation={folder}/state
SlurmdSpoolDir={folder}/spool-%n
SlurmctldPidFile={folder}/slurmctld.pid
SlurmdPidFile={folder}/slurmd-%n.pid
SlurmctldLogFile={folder}/slurmctld.log
SlurmdLogFile={folder}/slurmd-%n.log
MailProg=/bin/true
ProctrackType=proctrack/pgid
TaskPlugin=task/none
SwitchType=switch/none
JobAcctGatherType=jobacct_gather/none
AccountingStorageType=accounting_storage/none
SelectType=select/cons_tres
SelectTypeParameters=CR_CPU
SchedulerParameters=batch_sched_delay=0,sched_min_interval=0,sched_interval=2,bf_interval=2
SlurmdTimeout=5
SlurmctldTimeout=30
InactiveLimit=0
MinJobAge=3600
ReturnToService=2
JobRequeue=1
{nodes}
PartitionName=all Nodes=one,two Default=YES MaxTime=INFINITE State=UP OverSubscribe=NO
"""


class Unusable(Exception):
    """Why no Slurm could be had, as a sentence."""


def free_ports(count):
    held = [socket.create_server(("127.0.0.1", 0)) for _ in range(count)]
    ports = [it.getsockname()[1] for it in held]
    for it in held:
        it.close()
    return ports


def processes(wanted):
    """The processes whose environment has all of these words, but for this one."""
    found = []
    for place in Path("/proc").glob("[0-9]*"):
        try:
            words = (place / "environ").read_bytes().split(b"\0")
        except OSError:
            continue
        if int(place.name) != os.getpid() and all(it.encode() in words for it in wanted):
            found.append(int(place.name))
    return found


class TwoNodes:
    def __init__(self, folder, processors):
        missing = [it for it in ("munged", "slurmctld", "slurmd", "sbatch") if not shutil.which(it, path=self.path())]
        if missing:
            raise Unusable(f"{', '.join(missing)} is not there: on Debian, apt-get install slurm-wlm munge")
        self.folder, self.mark = folder, f"{MARK}={folder}"
        self.env = {**os.environ, "PATH": self.path(), "SLURM_CONF": f"{folder}/slurm.conf", MARK: str(folder)}
        ports = free_ports(3)
        nodes = "\n".join(f"NodeName={name} NodeHostname={socket.gethostname()} NodeAddr=127.0.0.1 Port={port} CPUs={processors} State=UNKNOWN"
                          for name, port in zip(NODES, ports[1:]))
        (folder / "state").mkdir()
        text = CONFIG.format(host=socket.gethostname(), ports=ports, user=self.user(), folder=folder, nodes=nodes)
        (folder / "slurm.conf").write_text(text)
        self.daemons = {}

    @staticmethod
    def path():
        return f"{os.environ.get('PATH', '')}:/usr/sbin:/sbin"

    @staticmethod
    def user():
        return subprocess.run(["id", "-un"], capture_output=True, text=True, check=True).stdout.strip()

    def start_daemon(self, name, words, **more):
        with open(self.folder / f"{name}.out", "ab") as out:
            self.daemons[name] = subprocess.Popen(["sh", "-c", f'ulimit -n {DESCRIPTORS}; exec "$@"', "", *words], stdin=subprocess.DEVNULL, stdout=out,
                                                  stderr=out, env={**self.env, **more}, start_new_session=True)

    def start(self):
        key = self.folder / "munge.key"
        key.write_bytes(os.urandom(128))
        key.chmod(0o400)
        at = self.folder
        self.start_daemon("munged", ["munged", "--foreground", "--force", f"--key-file={key}", f"--socket={at}/munge.socket", f"--pid-file={at}/munged.pid",
                                     f"--log-file={at}/munged.log", f"--seed-file={at}/munge.seed", "--num-threads=2"])
        self.wait_for(lambda: (at / "munge.socket").exists(), 20, "munged did not start")
        self.start_daemon("slurmctld", ["slurmctld", "-D", "-f", f"{at}/slurm.conf"])
        for name in NODES:
            self.start_node(name)
        self.wait_for(lambda: self.states() == dict.fromkeys(NODES, "idle"), 60, "the nodes are not idle")

    def start_node(self, name):
        (self.folder / f"spool-{name}").mkdir(exist_ok=True)
        self.start_daemon(name, ["slurmd", "-D", "-N", name, "-f", f"{self.folder}/slurm.conf"], SLURMD_NODENAME=name)

    def wait_for(self, holds, seconds, why):
        until = time.monotonic() + seconds
        while not holds():
            if time.monotonic() > until:
                raise Unusable(f"{why} within {seconds} seconds; the logs are in {self.folder}")
            time.sleep(0.1)

    def call(self, *words, check=True):
        return subprocess.run(words, env=self.env, capture_output=True, text=True, check=check).stdout

    def states(self):
        return dict(line.split() for line in self.call("sinfo", "-h", "-N", "-o", "%N %t", check=False).splitlines())

    def submit(self, *words):
        """Submits a job and returns its number."""
        ran = subprocess.run(["sbatch", "--parsable", *words], env=self.env, capture_output=True, text=True, check=False)
        if ran.returncode:
            raise Unusable(f"sbatch: {ran.stderr.strip()}")
        return ran.stdout.strip()

    def left(self, job):
        """The elements of a job that wait or run: their node, or an empty text, and state."""
        lines = self.call("squeue", "-h", "-r", "-j", job, "-o", "%T %N", check=False).splitlines()
        return [(line.split(" ", 1)[0], line.split(" ", 1)[1].strip()) for line in lines]

    def wait_out(self, job, seconds=3600):
        self.wait_for(lambda: not self.left(job), seconds, f"job {job} did not end")

    def kill_node(self, name):
        """Ends all of a node at once, as a loss of power does: its daemon, its steps and what they run."""
        for pid in processes([self.mark, f"SLURMD_NODENAME={name}"]):
            try:
                os.kill(pid, signal.SIGKILL)
            except ProcessLookupError:
                pass
        self.daemons.pop(name).wait()

    def stop(self):
        for name in ("slurmctld", *NODES, "munged"):
            if name in self.daemons and self.daemons[name].poll() is None:
                self.daemons[name].terminate()
                try:
                    self.daemons[name].wait(10)
                except subprocess.TimeoutExpired:
                    self.daemons[name].kill()
        for pid in processes([self.mark]):
            try:
                os.kill(pid, signal.SIGKILL)
            except ProcessLookupError:
                pass
