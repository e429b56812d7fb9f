"""The processes of examples/cluster, each started, killed and ended by name: the engine's nodes, a consumer of each shard and the one in waiting, and gateways."""
import os
import random
import signal
import subprocess
import sys
import time

ROOT = os.path.dirname(os.path.dirname(os.path.dirname(os.path.abspath(__file__))))
CLUSTER = f"{ROOT}/examples/cluster"
OVER = ["--set", f"{ROOT}/examples/summer.ssim", "--limits", f"{ROOT}/examples/limits.txt", "--first", "2024-07-01", "--days", "31"]
DAY = "2024-06-20"
PORT = 5771
sys.path.insert(0, CLUSTER)


class Cluster:
    """The processes, each under a name, and what they are started by."""

    def __init__(self, room, program, seed):
        self.room, self.program, self.running, self.lots = room, program, {}, random.Random(seed)
        self.nodes = [f"amqp://127.0.0.1:{PORT + n}" for n in range(3)]
        self.env = {**os.environ, "PORT": str(PORT), "PYTHONDONTWRITEBYTECODE": "1"}

    def engine(self, *words):
        subprocess.run([f"{CLUSTER}/engine", words[0], f"{self.room}/engine", *words[1:]], env=self.env, check=True, stdout=subprocess.DEVNULL, stderr=subprocess.DEVNULL)

    def start(self, name, words):
        with open(f"{self.room}/said", "ab") as said:
            self.running[name] = words, subprocess.Popen(words, env=self.env, stdin=subprocess.DEVNULL, stdout=said, stderr=said)

    def consumer(self, log, shard, shards, folder, behind=0):
        host = [self.program, "serve", *OVER, "--journal", f"{folder}/journal.txt"]
        self.start(("consumer", folder), [f"{CLUSTER}/shard.py", log, f"{shard}/{shards}", folder, "--behind", str(behind), *self.nodes, "--", *host])

    def gateway(self, log, shards, name, *words):
        way = [log, str(shards), DAY, f"{self.room}/{name}", "--program", self.program, "--nodes", ",".join(self.nodes)]
        self.start(("gateway", name), [f"{CLUSTER}/gateway.py", *way, *words])

    def end(self, name):
        """The process is gone, and the host behind it, which ends with its input."""
        process = self.running.pop(name)[1]
        hosts = self.hosts([process])
        process.send_signal(signal.SIGTERM)
        process.wait()
        while any(self.is_host(pid) for pid in hosts):
            time.sleep(0.1)

    def is_host(self, pid):
        return program_of(pid) == os.path.realpath(self.program)

    def hosts(self, processes):
        return [pid for pid in children([process.pid for process in processes]) if self.is_host(pid)]

    def kill(self):
        """Kills one of what may die, and starts it again."""
        kind = self.lots.choice(["node", "host", "consumer", "gateway"])
        if kind == "node":
            node = str(self.lots.randrange(1, 4))
            self.engine("kill", node)
            self.engine("start", node)
            return f"node {node}"
        if kind == "host":
            hosts = self.hosts([process for _, process in self.running.values()])
            if hosts:
                os.kill(self.lots.choice(hosts), signal.SIGKILL)
            return kind
        names = [name for name in self.running if name[0] == kind and self.running[name][1].poll() is None]
        if names:
            name = self.lots.choice(names)
            words, process = self.running[name]
            process.kill()
            process.wait()
            self.start(name, words)
        return kind

    def gateways_end(self, seconds):
        """Whether all gateways have all answers by then."""
        ends = time.monotonic() + seconds
        for name, (_, process) in self.running.items():
            if name[0] == "gateway":
                try:
                    process.wait(max(1, ends - time.monotonic()))
                except subprocess.TimeoutExpired:
                    return False
        return all(process.returncode == 0 for name, (_, process) in self.running.items() if name[0] == "gateway")


def children(parents):
    for pid in filter(str.isdigit, os.listdir("/proc")):
        try:
            with open(f"/proc/{pid}/stat", encoding="ascii") as it:
                if int(it.read().rsplit(")", 1)[1].split()[1]) in parents:
                    yield int(pid)
        except OSError:
            pass


def program_of(pid):
    try:
        return os.readlink(f"/proc/{pid}/exe")
    except OSError:
        return ""
