"""Runs the program over files that are damaged from a seed: no run may crash, hang or end in a status of its own, and an
index is refused, or answers, as a plain reading of its bytes says.

usage: damaged.py PROGRAM COUNT SEED [KIND]    COUNT files of each kind, or only of rules, blocks, database or indexes
"""
import collections
import multiprocessing
import os
import random
import signal
import sys
import tempfile
import time

import damaged_indexes

STATUSES = range(5)
SECOND = 1.0
# A run that waits for something would take no processor time: it is ended after so many seconds.
PATIENCE = 60
# How many damaged files are read by one run of a command that reads many.
BATCH = 250
# How many cases a processor takes at once.
SHARE = 250
# Each fault has to occur among so many damaged indexes.
MANY = 2000

RULES = rb'''# Each key, and each kind of value.
ACTION=="add|change", SUBSYSTEM=="block", KERNEL=="sd[a-z]*[!0-9]", DEVPATH=="*/x?", DRIVER!="none", NAME=="?*"
KERNELS=="host[0-9]", SUBSYSTEMS=="scsi", DRIVERS=="s[a-d]", ATTRS{model}=="Disk*", TAGS=="t", CONST{arch}=="x86-64"
ENV{ID_BUS}!="?*", ENV{ID_BUS}="$attr{vendor}-%s{model}", ENV{X}+="%k %n %p %b %E{Y} $driver $devnode $$ %%"
TEST!="/sys/%p/none", PROGRAM=="scsi_id -g $devnode", RESULT=="*[!a]", SYMLINK+="disk/by-id/%c{2+} two %c{1}"
IMPORT{builtin}="hwdb --subsystem=usb 'usb:v1D6Bp0002'", IMPORT{parent}=="ID_*", IMPORT{cmdline}="root", IMPORT{db}="K"
IMPORT{program}="echo 'A=1 B=2'", IMPORT{file}=="/run/x", IMPORT{builtin}!="path_id", ATTR{size}=="10??"
SYMLINK+="one two/$name three/%r", SYMLINK-="two", NAME="net%n", TAG+="a", TAG-="b", OWNER="root", GROUP:="disk", MODE="0660"
SECLABEL{selinux}+="x:y", SYSCTL{net/ipv4/x}="1", ATTR{queue/y}="on", RUN{program}+="/bin/echo $env{ID_BUS}", RUN{builtin}+="kmod load $env{MODALIAS}"
OPTIONS+="link_priority=-100", OPTIONS="string_escape=replace", OPTIONS+="watch", OPTIONS+="nowatch", OPTIONS+="static_node=a/b", OPTIONS+="log_level=7"
ENV{E}=e"a\tb\x41\101\u00e9\U0001F600\"", KERNEL==i"SD[A-C]|\"x\"", ENV{MODALIAS}=="usb:*", GOTO="end"
ENV{DOUBLED}="$env{DOUBLED}$env{DOUBLED}x", ENV{DOUBLED}="$env{DOUBLED}$env{DOUBLED}", \
  TAG+="%E{DOUBLED}" , SYMLINK+="%E{DOUBLED}"
LABEL="end"
ACTION!="remove", GOTO="last"
LABEL="last", TAG+="last"
'''

BLOCKS = rb'''C: add
P: /devices/pci0/usb1/1-1/host0/block/sda1
U: block
N: sda1
D: 8:1
V: sd
E: DEVTYPE=disk
E: ID_BUS=usb
E: EMPTY=
E: MODALIAS=usb:v1D6Bp0002d0510dc09
A: size=1000
A: queue/x= a  b 
G: t
S: disk/one
Q: echo 'A=1 B=2'
R: 0 A=1
Q: scsi_id -g /dev/sda1
R: 0 first second third
K: arch=x86-64
P: /devices/pci0/usb1/1-1/host0
U: scsi
A: model=Disk
A: vendor=None
P: /devices/pci0/usb1/1-1
U: usb
E: MODALIAS=usb:v1D6Bp0002d0510dc09dsc00dp00ic09isc00ip00in00
P: /devices/pci0

C: remove
P: /devices/pci0/net/eth0
U: net
E: INTERFACE=eth0

'''

HWDB = rb'''# Records.
usb:v1D6Bp0002*
usb:v1D6B*d[0-9]*
 ID_VENDOR=Linux
  ID_MODEL=hub # and a comment

mouse:*:name:*[tT]rack[bB]all*:*
 ID_INPUT_TRACKBALL=1

mouse:[!a-z]?[]x]:*
 MOUSE_DPI=1600@125
 =none

*
 ANY=

'''


def damage(chance, text):
    """A copy of a text to which a few things were done."""
    text = bytearray(text)
    for _ in range(chance.choice((1, 1, 1, 2, 3, 8))):
        at = chance.randrange(len(text) + 1)
        end = min(len(text), at + chance.choice((1, 1, 2, 4, 16, 100)))
        what = chance.randrange(10)
        if what == 0:
            del text[at:end]
        elif what == 1:
            del text[at:]
        elif what == 2:
            text[at:at] = text[at:end]
        elif what == 3:
            text[at:at] = chance.randbytes(chance.choice((1, 1, 4, 32)))
        elif what == 4:
            text[at:at] = text[at:end] * chance.choice((2, 300, 3000))
        elif what == 5:
            text[at:end] = chance.choice((b'"', b"\n", b"\\\n", b"\0", b"\xff", b"[", b"*" * 200, b"?*[!a]" * 40, b"$env{", b"%c{", b"="))
        elif what == 6:
            other = chance.randrange(len(text) + 1)
            text[at:end] = text[other:other + end - at]
        else:
            text[at:end] = chance.randbytes(end - at)
    return bytes(text)


class Runs:
    """Runs of the program in a folder of their own: how they ended, and what went wrong."""

    def __init__(self, program, folder):
        self.program, self.folder = program, folder
        self.ends, self.faults, self.slowest = collections.Counter(), [], 0

    def write(self, name, text):
        """Writes a file; returns its path."""
        path = os.path.join(self.folder, name)
        with open(path, "wb") as file:
            file.write(text)
        return path

    def spawn(self, words, source, outputs):
        """Runs the program; returns its status and the processor time that it took."""
        child = os.posix_spawn(self.program, [self.program, *words], {}, setsigdef=[signal.SIGPIPE], file_actions=[
            (os.POSIX_SPAWN_OPEN, 0, source, os.O_RDONLY, 0),
            *((os.POSIX_SPAWN_OPEN, number, path, os.O_WRONLY | os.O_CREAT | os.O_TRUNC, 0o600)
              for number, path in enumerate(outputs, 1))])
        signal.signal(signal.SIGALRM, lambda *_: os.kill(child, signal.SIGKILL))
        signal.alarm(PATIENCE)
        _, status, used = os.wait4(child, 0)
        signal.alarm(0)
        return os.waitstatus_to_exitcode(status), used.ru_utime + used.ru_stime

    def run(self, case, words, source=os.devnull, outputs=(os.devnull, os.devnull)):
        """Runs the program; what it must not do is noted for the case. Returns its status."""
        status, took = self.spawn(words, source, outputs)
        if took > SECOND:
            # A busy machine may count what the run did not take; what is really slow is slow again.
            status, took = self.spawn(words, source, outputs)
        self.slowest = max(self.slowest, took)
        if status not in STATUSES or took > SECOND:
            self.faults.append(f"{case}: status {status}, {took:.2f} s: {' '.join(words)}")
        return status

    def answer(self, case, words, source=os.devnull):
        """Runs the program; returns its status and what it wrote to its output and its error output."""
        outputs = [os.path.join(self.folder, name) for name in ("output", "errors")]
        written = [self.run(case, words, source, outputs)]
        for path in outputs:
            with open(path, "rb") as file:
                written.append(file.read())
        return tuple(written)


def rules(runs, chance, case):
    """Damaged rules files, many to a run."""
    files = [runs.write(f"{k}.rules", damage(chance, RULES)) for k in range(BATCH)]
    runs.ends[f"status {runs.run(case, ['verify', *files])}"] += 1


def blocks(runs, chance, case):
    """Damaged blocks, answered by damaged rules."""
    source = runs.write("blocks", damage(chance, BLOCKS))
    file = runs.write("a.rules", damage(chance, RULES) if chance.randrange(2) else RULES)
    runs.ends[f"status {runs.run(case, ['events', '-r', 'none', file], source)}"] += 1


def hwdb(runs, chance, case):
    """Damaged database files, many to a run."""
    files = [runs.write(f"{k}.hwdb", damage(chance, HWDB)) for k in range(BATCH)]
    runs.ends[f"status {runs.run(case, ['query', 'usb:v1D6Bp0002d0510', *files])}"] += 1


def indexes(runs, chance, case):
    """A damaged index, compared with a plain reading of its bytes."""
    index, modaliases = chance.choice(damaged_indexes.originals(runs.program))
    damaged_indexes.compare(runs, chance, case, damaged_indexes.damaged(chance, index), chance.choice(modaliases))


# What each kind is, the function that makes a case of it, and how many files a case has.
KINDS = {
    "rules": ("rules files", rules, BATCH), "blocks": ("blocks, with rules half of which are damaged", blocks, 1),
    "database": ("database files", hwdb, BATCH), "indexes": ("indexes", indexes, 1),
}


def share(job):
    """Some of the cases of a kind, by a seed of their own."""
    program, kind, seed, count = job
    _, make, batch = KINDS[kind]
    with tempfile.TemporaryDirectory() as folder:
        runs = Runs(program, folder)
        chance = random.Random(f"{seed} {kind}")
        for number in range(0, count, batch):
            make(runs, chance, f"{kind}, share {seed}, number {number}")
        return runs.ends, runs.faults, runs.slowest


def main(program, count, seed, kinds):
    faults = []
    with multiprocessing.Pool() as pool:
        for kind in kinds:
            begin = time.monotonic()
            jobs = [(program, kind, f"{seed}.{n}", min(SHARE, count - n)) for n in range(0, count, SHARE)]
            ends, slowest = collections.Counter(), 0
            for ended, wrong, took in pool.imap_unordered(share, jobs):
                ends += ended
                faults += wrong
                slowest = max(slowest, took)
            if kind == "indexes" and count >= MANY:
                faults += damaged_indexes.missing(ends)
            reported = ", ".join(f"{ends[end]} {end}" for end in sorted(ends))
            print(f"{count} damaged {KINDS[kind][0]}: {reported}; slowest run {slowest:.2f} s; "
                  f"{time.monotonic() - begin:.0f} s in total", flush=True)
    for fault in faults[:20]:
        print(fault)
    print(f"{len(faults)} runs failed")
    return bool(faults)


if __name__ == "__main__":
    sys.exit(main(os.path.realpath(sys.argv[1]), int(sys.argv[2]), sys.argv[3], sys.argv[4:] or KINDS))
