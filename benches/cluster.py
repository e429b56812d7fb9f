#!/usr/bin/python3
"""Requests a second from gateways to answers over examples/cluster, by shards and by the lines of a message, and what took the processors meanwhile.

    benches/cluster.py [--program FILE] [--lines N] [--gateways N]   N lines in all, 40,000 if left out, of four gateways with two sessions each

Each row is a log of its own: 1, 2, 4 and 8 shards with messages of 16 lines, and 4 shards with messages of 1 and of 256. Its figures are the requests a second, the seconds from the start of the gateways
to the last answer, how long a shard took for a message, and the processor seconds of the engine's nodes, the consumers, the hosts and the gateways, and of all that ran on the machine. Everything runs on
this one machine, three nodes of the engine too. It wants Debian's rabbitmq-server and python3-pika.
"""
import argparse
import collections
import os
import random
import sys
import tempfile
import time

ROOT = os.path.dirname(os.path.dirname(os.path.abspath(__file__)))
sys.path.insert(0, f"{ROOT}/tests/tools")
sys.dont_write_bytecode = True
import cluster_room  # noqa: E402
import streams  # noqa: E402 (cluster_room says where it is)

PAIRS = "LZ1 LHRJFK|LZ2 JFKLHR|LZ11 LHRSIN|LZ12 SYDLHR|LZ57 LHRJNB|LZ58 JNBLHR|LZ71 LHRBOM|LZ72 BOMLHR|LZ205 LHRLIS|LZ206 LISLHR|LZ209 LHRFNC|LZ210 FNCLHR|LZ331 LHRCDG|LZ332 CDGLHR|LZ601 LHRKEF|LZ602 KEFLHR".split("|")
ROWS = [(1, 16), (2, 16), (4, 16), (8, 16), (4, 1), (4, 256)]
TICK = os.sysconf("SC_CLK_TCK")


def script_of(lots, session, count):
    text = ""
    for number in range(count):
        name, pair = lots.choice(PAIRS).split()
        text += f"LONLZ {'ABCDEFGH'[session - 1]}{number:05d}\n{name}{lots.choice('YMQ')}{lots.randrange(1, 29):02d}JUL {pair} NN1\n\n"
    return text


def seconds_of(room, program):
    """The processor seconds so far of each kind of process that this bench has started, and those of the machine."""
    with open("/proc/stat", encoding="ascii") as it:
        user, nice, system, _, _, *interrupts = it.readline().split()[1:8]
    spent = collections.Counter({"all": sum(map(int, [user, nice, system, *interrupts])) / TICK})
    for pid in filter(str.isdigit, os.listdir("/proc")):
        try:
            with open(f"/proc/{pid}/cmdline", "rb") as it:
                words = it.read().decode().replace("\0", " ")
            with open(f"/proc/{pid}/stat", encoding="ascii") as it:
                fields = it.read().rsplit(")", 1)[1].split()
        except OSError:
            continue
        if room not in words:
            continue
        kind = "gateways" if "gateway.py" in words else "consumers" if "shard.py" in words else "hosts" if words.startswith(program) else "engine"
        spent[kind] += (int(fields[11]) + int(fields[12])) / TICK
    return spent


def measured(cluster, shards, lines, scripts, gateways):
    log = f"of-{shards}-{lines}"
    streams.make(cluster.nodes, log, shards)
    consumers = [f"{cluster.room}/{log}-{shard}" for shard in range(1, shards + 1)]
    for shard, folder in enumerate(consumers, 1):
        cluster.consumer(log, shard, shards, folder)
    time.sleep(3)
    began, ahead = time.time(), seconds_of(cluster.room, cluster.program)
    each = 8 // gateways
    names = [f"{log}-gateway-{number}" for number in range(gateways)]
    for number, name in enumerate(names):
        cluster.gateway(log, shards, name, "--lines", str(lines), *(f"{session}={scripts[session]}" for session in range(number * each + 1, number * each + each + 1)))
    spent = ahead
    running = {name: cluster.running["gateway", name][1] for name in names}
    while any(process.poll() is None for process in running.values()):
        now = seconds_of(cluster.room, cluster.program)
        spent = {kind: max(now[kind], spent[kind]) for kind in {*now, *spent}}
        time.sleep(0.1)
    ends = max(os.stat(f"{cluster.room}/{name}/told").st_mtime for name in names)  # (a gateway waits a second more for what is told behind its last answer)
    for folder in consumers:
        cluster.end(("consumer", folder))
    for name in names:
        cluster.running.pop(("gateway", name))
    return ends - began, {kind: spent[kind] - ahead[kind] for kind in spent}


def main():
    reader = argparse.ArgumentParser(description=__doc__, formatter_class=argparse.RawDescriptionHelpFormatter)
    reader.add_argument("--program", default=f"{ROOT}/crates/seatdesk/out/seatdesk")
    reader.add_argument("--lines", type=int, default=40_000)
    reader.add_argument("--gateways", type=int, default=4)
    way, lots = reader.parse_args(), random.Random(45)
    with tempfile.TemporaryDirectory() as room:
        cluster = cluster_room.Cluster(room, os.path.abspath(way.program), 45)
        scripts = {session: f"{room}/script-{session}" for session in range(1, 9)}
        for session, path in scripts.items():
            with open(path, "w", encoding="ascii") as out:
                out.write(script_of(lots, session, way.lines // 8))
        try:
            cluster.engine("up")
            for shards, lines in ROWS:
                seconds, spent = measured(cluster, shards, lines, scripts, way.gateways)
                parts = ", ".join(f"{kind} {spent[kind]:.1f} s" for kind in sorted(spent))
                each = seconds * shards * lines / way.lines * 1000
                print(f"{shards} shards, {lines} lines a message: {way.lines / seconds:,.0f} requests a second, {seconds:.1f} s, {each:.1f} ms a message; {parts}", flush=True)
        finally:
            for _, process in cluster.running.values():
                process.kill()
                process.wait()
            cluster.engine("down")


if __name__ == "__main__":
    main()
