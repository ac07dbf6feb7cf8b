#!/usr/bin/env python3
"""Runs the program as the tables in tests/tables/ say, each row in a folder of its own, and compares what it wrote.

Each table is a file of tests/tables/ with a list ROWS; what tables share is in tests/tables/kinds/. A row is reported in
one line, `ok TABLE: NAME`, or `not ok TABLE: NAME` followed by what differs.

usage: tests/rows.py PROGRAM [TABLE..]    without TABLE all of them
"""
import importlib
import os
import shutil
import stat
import subprocess
import sys
import tempfile
from concurrent.futures import ThreadPoolExecutor
from pathlib import Path

HERE = Path(__file__).resolve().parent
sys.path.insert(0, str(HERE))
from tables.kinds.row import FOLDER, PIPE, Begins, Device, Link, Moded, Read, as_bytes  # noqa: E402

SECONDS = 60

# a user for whom permissions count, for rows that root would run
PLAIN_USER = ["setpriv", "--reuid=65534", "--regid=65534", "--clear-groups"]


def make_files(folder, files):
    """Writes the files of a row below a folder, with their permissions last, so that none prevents writing another."""
    moded = []
    for name, text in files.items():
        path = Path(folder, os.fsdecode(name))
        path.parent.mkdir(parents=True, exist_ok=True)
        if isinstance(text, Moded):
            moded.append((path, text.mode))
            text = text.content
        if text is FOLDER:
            path.mkdir()
        elif text is PIPE:
            os.mkfifo(path)
        elif isinstance(text, Device):
            os.mknod(path, 0o600 | (stat.S_IFBLK if text.is_block else stat.S_IFCHR), os.makedev(text.major, text.minor))
        elif isinstance(text, Link):
            path.symlink_to(text)
        else:
            path.write_bytes(as_bytes(text))
    for path, mode in moded:
        path.chmod(mode)


def as_plain_user(program, reached):
    """How the program is started by a user for whom permissions count, in a copy below a folder; None if that is impossible."""
    if os.geteuid() != 0:
        return [program]
    if not shutil.which(PLAIN_USER[0]):
        return None
    os.chmod(reached, 0o755)
    return [*PLAIN_USER, shutil.copy(program, reached)]


def differences(what, wanted, got):
    """The lines that say where an output differs from the wanted one; empty if it does not."""
    if isinstance(wanted, Read):
        try:
            read = wanted.reader(got)
        except (KeyError, TypeError, ValueError) as fault:
            read = f"{fault!r} of {got[:2000]!r}"
        return [] if read == wanted.wanted else [f"    {what} wanted: {wanted.wanted!r}", f"    {what} read:   {read!r}"]
    wanted = wanted if isinstance(wanted, Begins) else as_bytes(wanted)
    if got.startswith(wanted) if isinstance(wanted, Begins) else got == wanted:
        return []
    return [f"    {what} wanted: {wanted[:2000]!r}", f"    {what} got:    {got[:2000]!r}"]


def run(started, row, folder):
    """The result of running a row in a folder that has its files, by how the program is started; None if it can't be."""
    words = row.words.split() if isinstance(row.words, str) else row.words
    if row.plain:
        os.chmod(folder, 0o755)
    return started and subprocess.run(
        [*started, *words], input=as_bytes(row.input), stdout=subprocess.PIPE, stderr=subprocess.STDOUT if row.together else subprocess.PIPE,
        cwd=folder, timeout=SECONDS)


def run_row(started, table, row):
    """Runs one row, and returns the lines that report it."""
    with tempfile.TemporaryDirectory() as folder:
        try:
            make_files(folder, row.files)
        except PermissionError:
            if not any(isinstance(text, Device) for text in row.files.values()):
                raise
            return [f"skipped {table}: {row.name}: only root makes device nodes"]
        try:
            came = run(started, row, folder)
        except subprocess.TimeoutExpired:
            return [f"not ok {table}: {row.name}", f"    not finished after {SECONDS} seconds"]
    if came is None:
        return [f"skipped {table}: {row.name}: root needs setpriv"]
    wrong = differences("output", row.output, came.stdout) + differences("messages", row.messages, came.stderr or b"")
    if came.returncode != row.status:
        wrong.append(f"    status wanted: {row.status}, got: {came.returncode}")
    return [f"{'not ok' if wrong else 'ok'} {table}: {row.name}", *wrong]


def main(program, tables):
    """Runs all rows of the tables, and returns whether each did what it should."""
    tables = tables or sorted(path.stem for path in (HERE / "tables").glob("*.py"))
    rows = [(table, row) for table in tables for row in importlib.import_module(f"tables.{table}").ROWS]
    names = [(table, row.name) for table, row in rows]
    twice = sorted({name for name in names if names.count(name) > 1})
    for table, name in twice:
        print(f"not ok {table}: two rows with the name {name}")
    with tempfile.TemporaryDirectory() as reached, ThreadPoolExecutor(os.cpu_count()) as pool:
        # (copied once, before any row runs: a process that starts while the copy is being written would keep it busy)
        plain = as_plain_user(program, reached)
        reported = list(pool.map(lambda pair: run_row(plain if pair[1].plain else [program], *pair), rows))
    for lines in reported:
        print("\n".join(lines))
    return not twice and not any(lines[0].startswith("not ok ") for lines in reported)


if __name__ == "__main__":
    if len(sys.argv) < 2:
        sys.exit(__doc__)
    try:
        sys.exit(not main(os.path.realpath(sys.argv[1]), sys.argv[2:]))
    except Exception as fault:
        # (so that whoever counts the lines also sees a table that can't be read)
        print(f"not ok tests/rows.py runs to its end: {fault!r}")
        raise
