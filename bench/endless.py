"""Long inputs through a pipe into `events`, `query -` and `compare`: the peak memory has to stay the same.

usage: endless.py PROGRAM [MEGABYTES..]    10, 100 and 1000 by default

Prints for each command a line for each size, and ends in 1 if the peak of one grew.
"""
import os
import sys
import tempfile
from pathlib import Path

from feeding import feed

MILLION = 1000 * 1000
BLOCK = "C: add\nP: /devices/x\n" + "".join(f"E: NAME{n}=a value of some length\n" for n in range(30)) + "\n"
# lines that are short, and one that is as long as a line may be
LINES = "usb:v1D6Bp0002\n" * 1000 + "a" * 65536 + "\n"
FILES = {
    "old/etc/udev/rules.d/a.rules": "".join(f'KERNEL=="none{n}", TAG+="none"\n' for n in range(10)),
    "new/etc/udev/rules.d/a.rules": 'TAG+="t"\n',
    "a.hwdb": "usb:*\n A=1\n",
}
# of each command its words, its input again and again, and its status
COMMANDS = [
    (["events", "-r", "none", "old/etc/udev/rules.d/a.rules"], BLOCK, 0),
    (["query", "-", "a.hwdb"], LINES, 0),
    (["compare", "old", "new"], BLOCK, 1),
]
# How much more than the first peak a later one may be, in MB. What of the program's own file is in memory differs by
# 0.3 MB from run to run; an input that is kept would add all of the difference in size.
SPARE = 1


def grows(program, words, text, status, sizes):
    """Whether the peak of a command grows with its input."""
    block = text.encode()
    peaks = []
    for size in sizes:
        seconds, peak = feed([program, *words], block, size * MILLION // len(block), status=status)
        print(f"{words[0]}: {size} MB: peak {peak:.2f} MB, {size / seconds:.0f} MB/s", flush=True)
        peaks.append(peak)
    return max(peaks) > peaks[0] + SPARE


def main(program, sizes):
    with tempfile.TemporaryDirectory() as folder:
        for name, text in FILES.items():
            path = Path(folder, name)
            path.parent.mkdir(parents=True, exist_ok=True)
            path.write_text(text, encoding="utf-8")
        # (the words name these files from there)
        os.chdir(folder)
        return any([grows(program, words, text, status, sizes) for words, text, status in COMMANDS])


if __name__ == "__main__":
    sys.exit(main(str(Path(sys.argv[1]).resolve()), [int(size) for size in sys.argv[2:]] or [10, 100, 1000]))
