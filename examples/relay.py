#!/usr/bin/env python3
"""Puts the two pipes of a desk on standard input and output, so that a desk far away talks with its host by ssh.

    examples/relay.py IN OUT

On the host stands, in the authorized_keys of the desk's own user, whose group may write IN and read OUT:

    restrict,command="/opt/seatdesk/relay.py /run/seatdesk/london.in /run/seatdesk/london.out" ssh-ed25519 AAAA.. london

Whatever that desk asks ssh to run, it gets its own pipes and nothing else; its client is 'examples/desk.py --by "ssh london@host" SCRIPT ANSWERS'.
Who may speak, and that nobody listens on the way, are ssh's to see to. The relay ends with its input, or when nobody reads it.
"""
import fcntl
import os
import select
import sys


def opened(path, way):
    """A pipe that is open for reading and for writing waits for nobody. One of another user may be open to us one way alone."""
    try:
        return os.open(path, os.O_RDWR)
    except PermissionError:
        return os.open(path, way)


def main(into, out):
    into, out = opened(into, os.O_WRONLY), opened(out, os.O_RDONLY)
    try:
        # a record lock keeps a second client away (the other kind is the host's)
        fcntl.lockf(into, fcntl.LOCK_EX | fcntl.LOCK_NB)
    except BlockingIOError:
        sys.exit("relay.py: another client has the desk")
    ways = {0: into, out: 1}
    look = select.poll()
    look.register(0, select.POLLIN)
    look.register(out, select.POLLIN)
    look.register(1, 0)  # (that nobody reads it any more is told without being asked for)
    while True:
        for source, event in look.poll():
            data = os.read(source, 4096) if source != 1 and event & (select.POLLIN | select.POLLHUP) else b""
            if not data:
                return
            while data:
                data = data[os.write(ways[source], data) :]


if __name__ == "__main__":
    if len(sys.argv) != 3:
        sys.exit(__doc__)
    try:
        main(*sys.argv[1:])
    except BrokenPipeError:
        pass
