#!/usr/bin/python3
"""Nothing lost, nothing twice: what the gateways have, the journals and the log, beside each other.

    examples/cluster/verify.py LOG SHARDS [--nodes NODE,..] [--begun STEM] [--gateways FOLDER..] [--scripts SCRIPT..] [--changes FILE] [--journals J1 J2 ..] -- PROGRAM --set .. --limits .. --first .. --days ..

Each shard's stream is sent, from its first message on, to a new host (PROGRAM serve .. --feed -) in a folder that is taken away again, over a copy of the journal with which the shard began where that is STEM.1, STEM.2, .. Then

- the journals J1, J2, .. of the shards, in this order, have the very bytes of the new ones, but for the END line where their hosts are still open;
- `audit --shards` accepts the new journals together;
- the lines that each gateway sent to a shard for a session are numbered 1, 2, 3, .., behind those that the session had there when the shard began, without a gap, and each has one answer: the one that the new host told of its number, with the locator that it asked for;
- the lines of the scripts and the rows of FILE, named as to the gateways, are those that the gateways sent to the shards of their flights, in their order;
- what the gateways were told of a shard is what its new host told their sessions, each line of it once.

It says what is not so, and ends with status 1 then; else with the totals of all.
"""
import argparse
import collections
import itertools
import os
import re
import shutil
import subprocess
import sys
import tempfile

from streams import NODES, follow, name_of, started

ADVICE = re.compile(r" KL\d+$")
failed = 0


def check(is_right, what):
    global failed
    if not is_right:
        failed += 1
        print(f"FAILED {what}")


def lived_again(nodes, stream, folder, program, over, begun):
    """The journal of a shard's stream, what its host tells, without the words of the manager's days, and how many lines each session had when the shard began."""
    os.makedirs(folder)
    journal, own = f"{folder}/journal.txt", collections.Counter()
    if begun:
        shutil.copyfile(begun, journal)
        shutil.copyfile(f"{begun}.seal", f"{journal}.seal")
        own = collections.Counter(line.split(" ")[1] for line in read(begun).decode().splitlines() if line[0].isdigit())
    words = ["--journal", journal, "--feed", "-", "--behind", str(own.total())]
    host = subprocess.Popen([program, "serve", *over, *words], stdin=subprocess.PIPE, stdout=subprocess.PIPE)

    def feed():
        try:
            for message in itertools.takewhile(bool, follow(nodes, stream, 0, 10.0)):
                host.stdin.write(message[2])
            host.stdin.close()
        except BrokenPipeError:
            pass  # the host is gone, which its status says

    started([feed])
    told = [line for line in host.stdout.read().decode().splitlines() if line.split(" ")[1] != "READY"]
    check(host.wait() == 0, f"a new host of {stream} ends with status {host.returncode}")
    return journal, told, own


def read(path):
    try:
        with open(path, "rb") as it:
            return it.read()
    except OSError as fault:
        check(False, str(fault))
        return b""


def rows(path, cuts):
    return [line.split(" ", cuts) for line in read(path).decode().splitlines()]


def compare_gateway(folder, told_by, begun):
    """A gateway's numbers, its answers, and what it was told beside what the shards told its sessions."""
    calls, refused = collections.defaultdict(list), collections.Counter()
    sent, told, answers = rows(f"{folder}/sent", 4), rows(f"{folder}/told", 2), rows(f"{folder}/answers", 3)
    for shard, _, text in told:
        if " FAULT " in text:
            refused[int(shard), 0, int(text.rsplit("@", 1)[1])] += 1
    for shard, session, call, *_ in sent:
        calls[int(shard), int(session)].append(int(call))
    for (shard, session), own in calls.items():
        wanted = [call for call in range(begun[shard][str(session)] + 1, max(own) + 1) for _ in range(refused[shard, session, call] + 1)]
        check(own in (wanted, wanted[:-1]), f"{folder}: the numbers of session {session} on shard {shard} have a gap or stand twice")
    check(collections.Counter((it[1], it[3]) for it in sent) == collections.Counter((it[0], it[1]) for it in answers), f"{folder}: each line has one answer")
    compare_answers(folder, sent, {(session, place): answer for session, place, _, answer in answers}, told_by, begun)
    sessions = {session for _, session in calls}
    for shard, all_told in told_by.items():
        own = collections.Counter(text for at, _, text in told if int(at) == shard and " FAULT " not in text)
        wanted = {text for text in all_told if int(text[0]) in sessions and " FAULT " not in text}
        check(max(own.values(), default=1) == 1, f"{folder}: a line of shard {shard} stands there twice")
        lost, strange = sorted(wanted - set(own)), sorted(set(own) - wanted)
        check(not lost and not strange, f"{folder}: of shard {shard} lost {lost[:3]}, strange {strange[:3]}")


def compare_scripts(routed, folders):
    """What was asked, as `route` says it, beside what was sent: of each shard and session the same lines in the same order."""
    asked, sent = collections.defaultdict(list), collections.defaultdict(list)
    for shard, session, place, text in (line.split(" ", 3) for line in routed.splitlines()):
        asked[shard, session].append((place, text))
    for shard, session, _, place, text in itertools.chain.from_iterable(rows(f"{folder}/sent", 4) for folder in folders):
        sent[shard, session].append((place, text))
    for shard, session in sorted({*asked, *sent}):
        check(asked[shard, session] == sent[shard, session], f"what session {session} sent to shard {shard} is not what its script asks")


def compare_answers(folder, sent, answers, told_by, begun):
    """Each line's answer is the one of its number, and speaks of its locator. A row of the manager that was refused has none, and is refused whenever it is sent."""
    of_call, counts = {}, collections.Counter({(shard, session): count for shard, own in begun.items() for session, count in own.items()})
    for shard, told in told_by.items():
        for text in dict.fromkeys(told):
            if not ADVICE.search(text) and " FAULT " not in text:
                counts[shard, text[0]] += 1
                of_call[shard, text[0], counts[shard, text[0]]] = text[4:]
    wrong = []
    for shard, session, call, place, asked in sent:
        found, wanted = answers.get((session, place), ""), of_call.get((int(shard), session, int(call)))
        is_refused = session == "0" and found.startswith("FAULT ")
        is_own = session == "0" or found.split(" ")[1:2] == asked.split(" ")[1:2]
        if not is_refused and not (found == wanted and is_own):
            wrong.append(f"line {place} of session {session}: {found}, and not {wanted}")
    check(not wrong, f"{folder}: answers that are not the shard's: {wrong[:3]}")


def main():
    ends = sys.argv.index("--") if "--" in sys.argv else sys.exit(__doc__)
    reader = argparse.ArgumentParser()
    reader.add_argument("log")
    reader.add_argument("shards", type=int)
    reader.add_argument("--nodes", type=lambda it: it.split(","), default=NODES)
    reader.add_argument("--begun", metavar="STEM")
    reader.add_argument("--gateways", nargs="*", default=[])
    reader.add_argument("--scripts", nargs="*", default=[])
    reader.add_argument("--changes")
    reader.add_argument("--journals", nargs="*", default=[])
    way, (program, *over) = reader.parse_args(sys.argv[1:ends]), sys.argv[ends + 1 :]
    with tempfile.TemporaryDirectory() as room:
        journals, told_by, begun = [], {}, {}
        for shard in range(1, way.shards + 1):
            stream, own = name_of(way.log, "lines", shard, way.shards), way.begun and f"{way.begun}.{shard}"
            journal, told_by[shard], begun[shard] = lived_again(way.nodes, stream, f"{room}/{shard}", program, over, own)
            journals.append(journal)
        for shard, (own, new) in enumerate(zip(way.journals, journals), 1):
            text, wanted = read(own), read(new)
            check(text in (wanted, re.sub(rb"END \d+\n$", b"", wanted)), f"the journal {own} is that of the stream of shard {shard}")
        for folder in way.gateways:
            compare_gateway(folder, told_by, begun)
        if way.scripts or way.changes:
            words = [program, "route", "--shards", str(way.shards), *(["--changes", way.changes] if way.changes else []), *way.scripts]
            compare_scripts(subprocess.run(words, stdout=subprocess.PIPE, check=True, text=True).stdout, way.gateways)
        audit = subprocess.run([program, "audit", *over, "--shards", *journals], capture_output=True, text=True, check=False)
        check(audit.returncode == 0, f"the journals are legal together: {audit.stderr.strip()}")
    print(audit.stdout.strip())
    sys.exit(1 if failed else 0)


if __name__ == "__main__":
    main()
