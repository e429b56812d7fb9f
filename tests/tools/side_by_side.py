"""Groups of a test, each run as its own command, as many side by side as there are processors."""
import os
import re
import subprocess
import sys
from concurrent.futures import ThreadPoolExecutor

LONG = "--long"  # the word for the long form of a test
IS_LONG = LONG in sys.argv


def counted(command):
    """What one command says ahead of its last line, and what that counts."""
    it = subprocess.run(command, stdin=subprocess.DEVNULL, stdout=subprocess.PIPE, stderr=subprocess.STDOUT, check=False)
    said = it.stdout.decode("utf-8", "replace")
    last = re.search(r"^(\d+) passed, (\d+) failed\n\Z", said, re.M)
    if not last or (it.returncode != 0) != (int(last[2]) > 0):
        return f"{said}{' '.join(command)}: status {it.returncode}\n", 0, 1
    return said[: last.start()], int(last[1]), int(last[2])


def run(program, names, more):
    """Runs these groups of the test that is running, shows what each says in their order, and ends with the sum of what they count."""
    passed = failed = 0
    commands = [[sys.executable, sys.argv[0], "--program", program, name, *more] for name in names]
    with ThreadPoolExecutor(os.cpu_count() or 1) as pool:
        for said, right, wrong in pool.map(counted, commands):
            print(said, end="", flush=True)
            passed, failed = passed + right, failed + wrong
    print(f"{passed} passed, {failed} failed", flush=True)
    sys.exit(failed > 0 or passed == 0)


def alone(program, words, groups, long_alone=()):
    """The group that is to run here, where one is named. Of several, and of all where none is, each runs as a command of its own, and the test ends.
    Where none is named those of the long form alone are left out of another."""
    names = [name for name in groups if name in words] or [name for name in groups if IS_LONG or name not in long_alone]
    if len(names) > 1:
        run(program, names, [LONG] * IS_LONG)
    return groups[names[0]]
