"""What runs take, for the scripts beside this file: processor time, the least of some runs that take turns, so that they
all have the same conditions."""
import os
import re
import sys
import tempfile
from collections import namedtuple

MILLION = 1000 * 1000
TURNS = 5

# The words of a command, the path of its input, that of the file for what it prints, and how it may end.
Run = namedtuple("Run", "words source answer statuses", defaults=(os.devnull, os.devnull, (0,)))
# Seconds, and the peak memory in MB (at least that of the script).
Taken = namedtuple("Taken", "seconds peak")


def take(run):
    """Runs a command."""
    child = os.posix_spawnp(run.words[0], run.words, os.environ, file_actions=[
        (os.POSIX_SPAWN_OPEN, 0, run.source, os.O_RDONLY, 0),
        (os.POSIX_SPAWN_OPEN, 1, run.answer, os.O_WRONLY | os.O_CREAT | os.O_TRUNC, 0o600),
        (os.POSIX_SPAWN_OPEN, 2, os.devnull, os.O_WRONLY, 0)])
    _, status, used = os.wait4(child, 0)
    status = os.waitstatus_to_exitcode(status)
    if status not in run.statuses:
        sys.exit(f"status {status}: {' '.join(run.words)}")
    return Taken(used.ru_utime + used.ru_stime, used.ru_maxrss / 1024)


def least(runs, turns=TURNS):
    """The least that each of some runs takes, by their names."""
    taken = [{name: take(run) for name, run in runs.items()} for _ in range(turns)]
    return {name: min(turn[name] for turn in taken) for name in runs}


def counted(run):
    """The instructions of a run, in millions, by valgrind: the same whatever else the machine does."""
    with tempfile.NamedTemporaryFile() as log:
        words = ["valgrind", "--tool=cachegrind", "--cache-sim=no", "--cachegrind-out-file=/dev/null", f"--log-file={log.name}"]
        take(run._replace(words=[*words, *run.words]))
        return int(re.search(rb"I\s+refs:\s+([\d,]+)", log.read())[1].replace(b",", b"")) / MILLION
