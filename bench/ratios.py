#!/usr/bin/env python3
"""Compares what the program takes with what systemd 257 takes over the same files, and how it grows with its input, each with
its aim.

Each row is the least of several runs that take turns with those that it is compared with: processor time and peak memory.
The growth rows give what one, ten and a hundred times as much of one thing takes; ten times as much should take ten times
as long. With --instructions valgrind counts instructions in place of time, which does not depend on what else the machine
does; the kernel's own are not among them, so there is no ratio to a program that only reads. Memory is measured in a run
of its own, as always; it is at least what this script holds, some 16 MB.

usage: bench/ratios.py ROOT UDEV [--instructions] [WORD]
           ROOT is the root of a distribution's files: usr/lib/udev/hwdb.d and rules.d; UDEV is what bench/udev_root.sh
           unpacked; WORD: only the rows whose names have it. The program is build/devdry, or PROGRAM. It needs cc.
"""
import os
import shutil
import subprocess
import sys
import tempfile
from collections import namedtuple
from pathlib import Path

from devices import REAL
from timing import MILLION, Run, counted, least, take
from worst_inputs import Case, each, events, prepared, verify

TOP = Path(__file__).resolve().parent.parent
PROGRAM = os.path.realpath(os.environ.get("PROGRAM", TOP / "build/devdry"))

# What is compared: its name; the names of the runs that it takes and of those to subtract, such as the start; how many
# things a run is over, to give what each takes, or None for the whole run; the runs that it is compared with; the aims, as a
# ratio, as time or speed, and as MB; and the runs to subtract from those that it is compared with.
Row = namedtuple("Row", "name runs start things unit beside aim most less", defaults=((), None, "", (), "", None, ()))

EVENTS = 1000
BYTES = 10 * MILLION
COPIES = 3
MODALIAS = "usb:v1D6Bp0002d0510dc09dsc00dp01ic09isc00ip00in00"
MODALIASES = (
    MODALIAS,
    "pci:v00008086d0000A0A1sv00001028sd00000A1Fbc0Csc80i00",
    "acpi:PNP0C0A:",
    "OUI:0019E3ABCDEF",
    "bluetooth:v000Fp1200d0510",
    "dmi:bvnDellInc.:bvr1.13.0:bd05/20/2021:svnDellInc.:pnXPS139310:pvr:",
    "mouse:usb:v046dpc52b:name:Logitech USB Receiver Mouse:",
    "touchpad:i2c:v06cbp7e7e:name:SynPS/2 Synaptics TouchPad:dmi:bvnHP:svnHP:",
    "sensor:modalias:acpi:KIOX000A:KIOX000A::dmi:bvnAmericanMegatrendsInc.:bvr5.12:bd05/20/2019:svnDefaultstring:",
    "evdev:input:b0003v046DpC52Be0111-e0,1,2,4,11,14,k71,72",
    "evdev:name:AT Translated Set 2 keyboard:dmi:bvnLENOVO:bvrN1MET64W(1.49):bd11/09/2021:svnLENOVO:pn20K3S0XX00:",
    "evdev:atkbd:dmi:bvnDellInc.:bvr1.13.0:bd05/20/2021:br1.13:svnDellInc.:pnXPS139310:pvr:rvnDellInc.:rn0DXP1F:",
)
# How many times all of these are asked for in one run, and looked up in events.
TIMES, LOOKED = 8334, 100

# A program that reads a whole file.
READER = r"""
#include <fcntl.h>
#include <stdlib.h>
#include <sys/stat.h>
#include <unistd.h>
int main(int count, char **words) {
    struct stat told;
    int file = open(words[count - 1], O_RDONLY);
    if (file < 0 || fstat(file, &told) < 0) return 1;
    char *bytes = malloc(told.st_size);
    long most = told.st_size, held = 0, more = 1;
    while (bytes && more > 0) held += more = read(file, bytes + held, most - held);
    return held != most;
}
"""

# What grows, and how many there are at first.
GROWTH = (
    Case("entries of a database", 1_000, lambda n: (["update", "t.hwdb"], {"t.hwdb": each("m#*\n A=#\n\n", n)}, "")),
    Case("entries, in a query", 1_000, lambda n: (["query", "m7x", "t.hwdb"], {"t.hwdb": each("m#*\n A=#\n\n", n)}, "")),
    Case("rules that are read", 100, lambda n: verify(each('KERNEL=="k#", SUBSYSTEM=="block", TAG+="t#"\n', n))),
    Case("rules over an event", 100, lambda n: events(each('KERNEL=="k#", SUBSYSTEM=="block", TAG+="t#"\n', n))),
    Case("blocks", 1_000, lambda n: events('TAG+="a"\n', ("C: add\nP: /a\n" + each("E: A#=1\n", 30) + "\n") * n)),
    Case("jumps", 100, lambda n: events(each('GOTO="l#"\n', n) + each('LABEL="l#"\n', n))),
    Case("links", 100, lambda n: events(each('SYMLINK+="l#"\n', n))),
    Case("RUN texts", 100, lambda n: events(each('RUN+="c#"\n', n))),
)


class Bench:
    """The inputs of all rows, in a folder that is deleted at the end, and the runs over them."""

    def __init__(self, root, udev, work):
        self.root, self.work = root, work
        self.loader = [f"{udev}/lib64/ld-linux-x86-64.so.2", "--library-path", ":".join(
            f"{udev}/usr/lib/x86_64-linux-gnu{part}" for part in ("", "/systemd"))]
        self.udev = udev
        self.runs = {}

    def put(self, name, data, times=1):
        """Writes a file of some bytes, repeated so many times; returns its path. (What this script holds counts as a run's peak.)"""
        path = os.path.join(self.work, name)
        os.makedirs(os.path.dirname(path), exist_ok=True)
        with open(path, "wb") as file:
            for _ in range(times):
                file.write(data)
        return path

    def other(self, name, *words, statuses=(0,)):
        """A run of a systemd program with a name."""
        return Run([*self.loader, f"{self.udev}/usr/bin/{name}", *words], statuses=statuses)

    def own(self, *words, source=os.devnull, answer=os.devnull, statuses=(0,)):
        """A run of the program."""
        return Run([PROGRAM, *words], source, answer, statuses)

    def database(self):
        """Runs over the database, the index, and what systemd-hwdb makes of the same files."""
        other, index = os.path.join(self.work, "other"), os.path.join(self.work, "index")
        shutil.copytree(f"{self.root}/usr/lib/udev/hwdb.d", f"{other}/usr/lib/udev/hwdb.d")
        os.makedirs(f"{other}/etc/udev")
        reader = os.path.join(self.work, "reader")
        subprocess.run(["cc", "-O2", "-xc", "-", "-o", reader], input=READER, text=True, check=True)
        take(self.own("update", "-r", self.root, answer=index))
        asked = self.put("modaliases", "".join(f"{text}\n" for text in MODALIASES).encode(), TIMES)
        self.runs |= {
            "systemd-hwdb update": self.other("systemd-hwdb", "--root", other, "update"),
            "systemd-hwdb query": self.other("systemd-hwdb", "--root", other, "query", MODALIAS),
            "update": self.own("update", "-r", self.root),
            "query": self.own("query", "-r", self.root, MODALIAS),
            "query --index": self.own("query", "--index", index, MODALIAS),
            "a C program that reads the file": Run([reader, index]),
        }
        many = self.own("query", "--index", index, "-", source=asked, answer=os.path.join(self.work, "answers"))
        take(many)
        # a program that does not know `-` as the input takes it for a modalias, for which there is nothing
        if os.path.getsize(many.answer):
            self.runs["many"] = many
        looking = self.put("looking.rules", b'IMPORT{builtin}="hwdb"\n')
        passing = self.put("passing.rules", b'ACTION=="none", IMPORT{builtin}="hwdb"\n')
        blocks = self.put("devices", "".join(f"C: add\nP: /devices/x\nU: x\nE: MODALIAS={text}\n\n" for text in MODALIASES).encode(), LOOKED)
        self.runs |= {
            "looking": self.own("events", "--index", index, looking, source=blocks),
            "passing": self.own("events", "--index", index, passing, source=blocks),
        }

    def rules(self):
        """Runs over the rules of a distribution: their events, and what is wrong with them."""
        texts = {path.name: path.read_bytes() for path in sorted(Path(self.root, "usr/lib/udev/rules.d").glob("*.rules"))}
        paths = [self.put(f"copies/usr/lib/udev/rules.d/{copy}{name}", text) for copy in range(COPIES) for name, text in texts.items()]
        devices = "".join("\n".join(lines) + "\n\n" for lines in REAL.values())
        count = EVENTS // len(REAL)
        blocks = self.put("blocks", devices.encode(), count)
        self.runs |= {
            "start": self.own("events", "-r", self.root),
            "rules start": self.own("events", "-r", f"{self.work}/copies"),
            "rules": self.own("events", "-r", f"{self.work}/copies", source=blocks),
            "udev start": self.own("events", "--udev", "-r", f"{self.work}/copies"),
            "as lines": self.own("events", "--udev", "-r", f"{self.work}/copies", source=blocks),
            "as JSON": self.own("events", "--udev", "--format=json", "-r", f"{self.work}/copies", source=blocks),
            "as JSON with sources": self.own("events", "--udev", "--format=json", "--sources", "-r", f"{self.work}/copies", source=blocks),
            "verify": self.own("verify", *paths, statuses=(0, 1)),
            "udevadm verify": self.other("udevadm", "verify", "--no-style", "--resolve-names=never", "--no-summary", *paths, statuses=(0, 1)),
        }
        lines = sum(1 for text in texts.values() for line in text.replace(b"\\\n", b"").split(b"\n") if line.strip() and not line.lstrip().startswith(b"#"))
        return lines * COPIES, count * len(REAL)

    def blocks(self):
        """Runs over blocks with 1, 30 and 3,000 properties, through ten rules that match nothing."""
        ten = self.put("ten.rules", "".join(f'KERNEL=="none{number}", TAG+="none"\n' for number in range(10)).encode())
        for properties in (1, 30, 3000):
            lines = ["C: add", "P: /devices/pci0/usb1/1-1/block/sda", "U: block", "N: sda", "D: 8:0",
                     *(f"E: NAME{number}=value" for number in range(properties)), "P: /devices/pci0/usb1", "U: usb", "A: serial=7", "", ""]
            text = "\n".join(lines)
            source = self.put(f"{properties}.blocks", text.encode(), BYTES // len(text))
            self.runs[f"{properties} properties"] = self.own("events", "-r", "none", ten, source=source)
        self.runs["ten rules"] = self.own("events", "-r", "none", ten)

    def rows(self):
        """All rows."""
        self.database()
        rules, count = self.rules()
        self.blocks()
        update = ("systemd-hwdb update",)
        reading = ("a C program that reads the file",)
        yield Row("`query` from sources", ("query",), beside=(*update, "systemd-hwdb query"), aim="0.2", most=40)
        yield Row("`update`", ("update",), beside=update, aim="0.5", most=110)
        yield Row("`events` start, from the folders", ("start",), beside=update, aim="0.4", most=110)
        yield Row("`query --index`", ("query --index",), beside=reading, aim="1.2")
        if "many" in self.runs:
            yield Row(f"`query --index FILE -`, each of {TIMES * len(MODALIASES):,}", ("many",), ("query --index",), TIMES * len(MODALIASES), "us")
        yield Row("a look-up in an event, by an index", ("looking",), ("passing",), LOOKED * len(MODALIASES), "us")
        for properties in (1, 30, 3000):
            yield Row(f"blocks of {properties} properties, ten rules that match nothing", (f"{properties} properties",), ("ten rules",),
                      os.path.getsize(f"{self.work}/{properties}.blocks"), "MB/s", aim="90 MB/s" if properties == 30 else "")
        yield Row(f"an event by {rules:,} rules", ("rules",), ("rules start",), count, "us", aim="30 us")
        for how, aim in (("as JSON", "1.5"), ("as JSON with sources", "2.5")):
            yield Row(f"an event {how} with `--udev`", (how,), ("udev start",), count, "us", ("as lines",), aim, less=("udev start",))
        yield Row(f"`verify`, {rules:,} rules", ("verify",), beside=("udevadm verify",))


def shown(row, cost, unit):
    """The result of a row, in words."""
    if row.things is None:
        return f"{cost * 1000:.1f} ms" if unit == "s" else f"{cost:.1f} M"
    if row.unit == "MB/s":
        return f"{row.things / cost / MILLION:.0f} MB/s" if unit == "s" else f"{cost * MILLION / row.things:.1f} for a byte"
    return f"{cost / row.things * MILLION:.1f} us" if unit == "s" else f"{cost / row.things * 1000:.1f} k"


def table(bench, word, unit):
    """Prints what each row takes, with its ratio and its aims."""
    rows = [row for row in bench.rows() if word in row.name]
    names = dict.fromkeys(name for row in rows for name in (*row.runs, *row.start, *row.beside, *row.less))
    runs = {name: bench.runs[name] for name in names}
    taken = least(runs, turns=5 if unit == "s" else 2)
    costs = {name: counted(run) for name, run in runs.items()} if unit != "s" else {name: it.seconds for name, it in taken.items()}
    print("| What | Cost | Compared with | Ratio | Aim | Peak memory | Aim |\n|---|---|---|---|---|---|---|")
    for row in rows:
        own = sum(costs[name] for name in row.runs) - sum(costs[name] for name in row.start)
        other = sum(costs[name] for name in row.beside) - sum(costs[name] for name in row.less)
        cells = [row.name, shown(row, own, unit), f"{' and '.join(row.beside)}: {shown(Row('', ()), other, unit)}" if other else "",
                 f"{own / other:.2f}" if other > (0 if unit == "s" else 1) else "", row.aim, f"{max(taken[name].peak for name in row.runs):.0f} MB", f"{row.most} MB" if row.most else ""]
        print("| " + " | ".join(cells) + " |", flush=True)


def growth(word, unit):
    """Prints what one, ten and a hundred times as much of each thing takes."""
    print("\n| What | Once | Ten times | A hundred times | Ten times / once | A hundred times / ten times |\n|---|---|---|---|---|---|")
    for case in (case for case in GROWTH if word in case.name):
        costs = []
        for times in (0, 1, 10, 100):
            with prepared(PROGRAM, case, case.count * times) as run:
                costs.append(min(take(run) for _ in range(3)).seconds if unit == "s" else counted(run))
        once, ten, hundred = (cost - costs[0] for cost in costs[1:])
        once, ten = max(once, 1e-4), max(ten, 1e-4)
        reported = (f"{cost * 1000:.1f} ms" if unit == "s" else f"{cost:.1f} M" for cost in (once, ten, hundred))
        print(f"| {case.count:,} {case.name} | {' | '.join(reported)} | {ten / once:.1f} | {hundred / ten:.1f} |", flush=True)


def main(words):
    unit = "M" if "--instructions" in words else "s"
    root, udev, *word = [os.path.abspath(word) if at < 2 else word for at, word in enumerate(it for it in words if it != "--instructions")]
    with tempfile.TemporaryDirectory() as work:
        table(Bench(root, udev, work), " ".join(word), unit)
    growth(" ".join(word), unit)


if __name__ == "__main__":
    if len(sys.argv) < 3:
        sys.exit(__doc__)
    main(sys.argv[1:])
