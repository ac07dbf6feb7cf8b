"""What each format takes for a file whose lines have as many messages as they can: no more than ten times the memory of `plain`,
and a report of no more than a hundred times the bytes of the file.

usage: many_messages.py PROGRAM [LINES]    10 lines of 1,800 messages each by default

Prints a line for each format, and ends in 1 if one takes more.
"""
import os
import sys
import tempfile

from timing import Run, take

FORMATS = ["plain", "gcc", "github", "json", "human", "gitlab", "sarif"]
LINE = ",".join(['TAG+="b"'] * 1_800) + "\n"
MOST_MEMORY, MOST_BYTES = 10, 100


def taken(program, form):
    """What the check of the file in a format takes, and how long its report is."""
    run = Run([program, "verify", f"--format={form}", "r.rules"], answer="report", statuses=(1,))
    return take(run), os.path.getsize("report")


def main(program, lines):
    with tempfile.TemporaryDirectory() as folder:
        os.chdir(folder)
        with open("r.rules", "w", encoding="ascii") as file:
            file.write(LINE * lines)
        every = {form: taken(program, form) for form in FORMATS}
        plain = every["plain"][0].peak
        more = [form for form, (took, size) in every.items() if took.peak > MOST_MEMORY * plain or size > MOST_BYTES * len(LINE) * lines]
        for form, (took, size) in every.items():
            print(f"{form}: {took.seconds:.2f} s, {took.peak:.0f} MB, a report of {size:,} bytes{', too much' if form in more else ''}", flush=True)
        os.chdir("/")
    return bool(more)


if __name__ == "__main__":
    sys.exit(main(os.path.realpath(sys.argv[1]), int(sys.argv[2]) if len(sys.argv) > 2 else 10))
