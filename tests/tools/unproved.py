"""./seatdesk --try WORDS: one command by `rt try`, which compiles it with checks, runs it and proves nothing.

The commands that only read are tried, on inputs without a seal beside them; `run`, `seal`, `recover`, `audit` with scripts, `compare`, `carry`, and a season in the place of its four options, are refused. The program is made anew at each use, of the
one command alone (small_program.py), in a folder that goes away again, and runs in a folder of its own: so each file among the
words is handed to it under another name. Standard output and the exit status are those of the program. The status is 125 where
nothing was run or it gave no answer.
"""
import os
import re
import shutil
import signal
import stat
import subprocess
import sys
import tempfile

import small_program

ROOT = os.path.dirname(os.path.dirname(os.path.dirname(os.path.abspath(__file__))))
# No input that is longer is read.
MOST_BYTES = 256 << 20
SECONDS = "600"
# What rt try says last of a program that ended.
ENDED = re.compile(rb"^checked: ended status=.*\n(?:races: .*\n)?run=ended status=(\d+) .*\n\Z", re.M)


def fail(why):
    print(f"seatdesk: {why}", file=sys.stderr)
    sys.exit(125)


def commands():
    """By command, the options that take files, the options that take other values, and whether its other words are files: as the
    completions have them, which are made from the program's help."""
    with open(f"{ROOT}/completions/seatdesk.bash", encoding="utf-8") as it:
        arms = re.findall(r"^    (\w+)\)\n +words='.*'\n +files='(.*)'\n +values='(.*)'\n +place='(.*)'$", it.read(), re.M)
    return {name: (files.split(), values.split(), place == "files") for name, files, values, place in arms}


class Words:
    """The words of a command line: its command, the places of its files and of what is read of standard input, and how many words
    are no options."""

    def __init__(self, words):
        self.words, self.files, self.standard, self.plain = list(words), [], [], 0
        at = next((i for i, it in enumerate(words) if not it.startswith("-")), len(words))
        self.command = words[at] if at < len(words) else ""
        self.asks_help = bool({"-h", "--help"} & set(words))
        self.has_season = any(it == "--season" or it.startswith("--season=") for it in words)
        options, values, are_files = commands().get(self.command, ([], [], False))
        is_behind = False
        at += 1
        while at < len(words):
            word = words[at]
            name, equals, _ = word.partition("=")
            if not is_behind and word == "--":
                is_behind = True
            elif not is_behind and name in options:
                at += not equals
                if at < len(words):
                    self.files.append((at, name + "=" if equals else ""))
            elif not is_behind and name in values:
                at += not equals
            elif is_behind or word == "-" or not word.startswith("-"):
                self.plain += 1
                if are_files and word == "-":
                    self.standard.append(at)
                elif are_files:
                    self.files.append((at, ""))
            at += 1


def refuse(words):
    if words.asks_help:
        return
    if words.command == "run":
        fail("run writes a journal, and --try is for commands that only read: without --try the program is proved and built, and run")
    if words.command == "seal":
        fail("seal writes a seal, and --try is for commands that only read: without --try the program is proved and built, and seals")
    if words.command == "recover":
        fail("recover cuts a journal and ends it, and --try is for commands that only read: without --try the program is proved and built, and recovers")
    if words.command in ("compare", "carry"):
        fail(f"{words.command} takes seasons, whose files are not among the words, and --try hands over no others: without --try the program is proved and built, and answers")
    if words.has_season and words.command != "explain":
        fail("--try takes no --season, whose files are not among the words: name --set, --limits, --first and --days, or leave out --try")
    if words.command == "audit" and words.plain > 1:
        fail("--try has audit without scripts: with them, leave out --try, and the program is proved and built, and audits")


def lies(path):
    """What kind of file is there, or None."""
    try:
        return stat.S_IFMT(os.stat(path).st_mode)
    except (OSError, ValueError):
        return None


def is_copied(source, path):
    """Copies what a pipe or a terminal gives, as far as any input is read; says whether it could be read."""
    try:
        with open(source, "rb", buffering=0, closefd=source != 0) as given, open(path, "wb") as it:
            left = MOST_BYTES + 1
            while left > 0:
                piece = given.read(min(left, 1 << 20))
                if not piece:
                    break
                left -= it.write(piece)
        return True
    except OSError:
        return False


def hand_over(words, room):
    """The words with the names that the files have in the program's folder, and by name the files themselves and what they were called."""
    handed, called = {}, {}
    given = list(words.words)
    for at, ahead in words.files:
        path = given[at][len(ahead) :]
        kind = lies(path)
        name = f"file-{at}"
        if kind == stat.S_IFDIR:
            name = "."
        elif kind == stat.S_IFREG and os.access(path, os.R_OK):
            handed[name] = os.path.abspath(path)
        elif kind is not None and is_copied(path, f"{room}/{name}"):
            handed[name] = f"{room}/{name}"
        # (a file that does not open is none in the program's folder either)
        given[at] = ahead + name
        called[name] = path
    if words.command == "ladder" or words.standard:
        if not is_copied(0, f"{room}/standard-input"):
            fail("standard input can't be read")
        handed["-"] = f"{room}/standard-input"
    for at in words.standard:
        given[at] = f"file-{at}"
        handed[given[at]] = handed["-"]
        called[given[at]] = "standard input"
    return given, handed, called


def is_utf_8():
    """Whether the locale is one of UTF-8, as the program sees it."""
    named = next((it for it in map(os.environ.get, ("LC_ALL", "LC_CTYPE", "LANG")) if it), "")
    return named.partition(".")[2].partition("@")[0].upper() in ("UTF-8", "UTF8")


def tried(words, given, handed, room):
    """What the program writes to standard output, and to standard error with the lines of rt try behind."""
    small_program.make(ROOT, f"{room}/program", words.command, is_utf_8())
    how = ["rt", "try", "--seconds", SECONDS]
    for name, path in handed.items():
        how += ["--data", f"{name}={path}"] if name != "-" else []
    with open(handed.get("-", os.devnull), "rb") as standard, open(f"{room}/out", "w+b") as out, open(f"{room}/said", "w+b") as said:
        it = subprocess.Popen(
            [*how, "--", *given],
            cwd=f"{room}/program/crates/{small_program.PROGRAM}",
            stdin=standard,
            stdout=out,
            stderr=said,
        )
        try:
            it.wait()
        finally:
            if it.poll() is None:
                it.terminate()
                it.wait()
        out.seek(0)
        said.seek(0)
        return out.read(), said.read()


def main():
    # (Python has none of those that the caller closed)
    sys.stderr = sys.stderr or open(os.devnull, "w", encoding="utf-8")
    words = Words(sys.argv[1:])
    refuse(words)
    if not shutil.which("rt"):
        fail("--try needs rt, the command of the Rattle kit, on PATH: put the kit's folder bin there, and run this again")
    for it in (signal.SIGTERM, signal.SIGHUP, signal.SIGINT):
        signal.signal(it, lambda number, _: sys.exit(125))
    what = words.command if words.command in commands() else "the command line"
    print(
        f"seatdesk: nothing is proved here: {what} alone is compiled with checks and tried, in a minute or two; without --try the"
        " program is proved and built, and run",
        file=sys.stderr,
        flush=True,
    )
    with tempfile.TemporaryDirectory(prefix="seatdesk-") as room:
        given, handed, called = hand_over(words, room)
        out, said = tried(words, given, handed, room)
    ended = ENDED.search(said)
    if not ended:
        sys.stderr.buffer.write(said)
        fail("rt try gave no answer, for the reason above")
    faults = said[: ended.start()]
    for name, path in called.items():
        faults = faults.replace(f"seatdesk: {name}: ".encode(), b"seatdesk: " + os.fsencode(path) + b": ")
    sys.stderr.buffer.write(faults)
    sys.stderr.flush()
    try:
        sys.stdout.buffer.write(out)
        sys.stdout.buffer.flush()
    except (OSError, AttributeError):
        # (as the program ends where its standard output is closed or takes nothing)
        print("seatdesk: DEVICE", file=sys.stderr, flush=True)
        os._exit(3)
    sys.exit(int(ended[1]))


if __name__ == "__main__":
    main()
