#!/usr/bin/env python3
"""Checks whether what `events --why` and `events --sources` say about a distribution's rules is what its events result in.

Each of some devices is asked for four times: without an option, with --why of every rules file, with --sources, and with both.
Without its `why` lines an answer has to be that without --why, byte for byte, and without its sources that without
--sources. Just one end is reported for each rule. A rule that stops has a key that fails above that, one that reached its end
has none, and a jump is one of a rule above whose end was reached. And the two options agree: the rule that a line comes from
reports the line in its course. All this is asked over the distribution's database, and once more without one: then each line,
with what is reported and where it comes from, has to be that of a plain reading of the rules (plain_courses.py).

The counts are printed, and then the time that an event takes with each option, and the time of the start.

usage: courses.py PROGRAM ROOT [COUNT]    ROOT has rules and a database, as tools that unpack packages leave them; COUNT
devices of this machine are asked for in addition to those of devices.py, 20 by default
"""
import collections
import os
import re
import subprocess
import sys
import tempfile

import plain_courses
from devices import REAL
from plain_rules import rules_of
from timing import Run, least

TOP = os.path.dirname(os.path.dirname(os.path.realpath(__file__)))
FOLDERS = ("etc", "run", "usr/local/lib", "usr/lib")
# How often the events are answered again when they are timed.
ROUNDS = 20
# A longer text is cut where it is reported.
SHOWN = 200
# The faults after which their line still has a rule: one of a label or a jump alone.
KEPT = ("V7", "V8")
ENDS = ("stops there", "reached its end", "passed over by GOTO of ", "not read: ")
WORDS = "name owner group mode priority watch nowatch persist label link tag env attr sysctl run".split()
SOURCE = re.compile(rf"(?:-|(.+?):(\d+)): ((?:{'|'.join(WORDS)})\b.*)")

Why = collections.namedtuple("Why", "file line text")


def rules_files(root):
    """The rules files of a root by their names, as the program reads them."""
    found = {}
    for folder in FOLDERS:
        path = os.path.join(root, folder, "udev/rules.d")
        for name in os.listdir(path) if os.path.isdir(path) else ():
            if name.endswith(".rules"):
                found.setdefault(name, os.path.join(path, name))
    return dict(sorted(found.items()))


def devices_of_this_machine(count):
    """Blocks of so many devices of this machine, of as many subsystems as there are."""
    words = [f"{TOP}/tools/devdry-capture", "--kernel", "--all"]
    captured = subprocess.run(words, stdout=subprocess.PIPE, stderr=subprocess.DEVNULL, check=False).stdout.decode("latin-1")
    kinds = collections.defaultdict(list)
    for block in filter(None, captured.split("\n\n")):
        subsystem = re.search("^U: (.*)", block.split("\nP:")[1], re.M)
        kinds[subsystem and subsystem[1]].append(block)
    # one of each kind, then the next of each
    turns = sorted((turn, str(kind), block) for kind, blocks in kinds.items() for turn, block in enumerate(blocks))
    return [block for _, _, block in turns[:count]]


class Runs:
    """The program over rules files and a database, which is an index in a folder of its own."""

    def __init__(self, program, root, files, database, folder):
        self.folder = folder
        with open(f"{folder}/hwdb.index", "wb") as index:
            subprocess.run([program, "update", *database], stdout=index, stderr=subprocess.DEVNULL, check=True)
        self.words = [program, "events", "-r", root, "--index", f"{folder}/hwdb.index"]
        whys = [word for name in files for word in ("--why", name)]
        self.options = {"plain": [], "why": whys, "sources": ["--sources"], "both": ["--sources", *whys]}

    def answers(self, way, blocks):
        """The answers to blocks, each as its lines, and the messages."""
        text = "".join(f"{block}\n\n" for block in blocks).encode("latin-1")
        ran = subprocess.run([*self.words, *self.options[way]], input=text, capture_output=True, check=True)
        return [answer.split("\n") for answer in ran.stdout.decode("latin-1").split("\n\n")[:-1]], ran.stderr.decode("latin-1")

    def times(self, blocks):
        """What the start takes, and what an event takes in each way, in milliseconds."""
        for name, rounds in (("once", 1), ("often", ROUNDS + 1)):
            with open(f"{self.folder}/{name}", "w", encoding="latin-1") as file:
                file.write("".join(f"{block}\n\n" for block in blocks) * rounds)
        taken = least({(way, name): Run([*self.words, *words], f"{self.folder}/{name}")
                       for way, words in self.options.items() for name in ("once", "often")}, 3)
        more = ROUNDS * len(blocks)
        return taken["plain", "once"].seconds, {
            way: (taken[way, "often"].seconds - taken[way, "once"].seconds) / more * 1000 for way in self.options}


def read_plainly(files, messages):
    """The rules of the files as the plain reading has them, and what is reported about lines that are not read."""
    not_read = {}
    for said in messages.splitlines():
        found = re.fullmatch(r"(.+?):(\d+): ((V\d+) .*)", said)
        if found and found[4] not in KEPT:
            not_read[found[1], int(found[2])] = f"{found[1]}:{found[2]}: not read: {found[3]}"
    rules = []
    for name, path in files.items():
        with open(path, encoding="latin-1", newline="\n") as file:
            rules += rules_of(name, file.read(), {line for file_name, line in not_read if file_name == name})
    return rules, not_read


def read_why(line):
    """The parts of a line that says why."""
    place = re.fullmatch(r"why (.+?):(\d+): (.*)", line)
    return Why(place[1], int(place[2]), place[3])


def end_faults(courses, rules, counts):
    """What is wrong with the courses of an answer, each as a place and a text; how many end in each way is counted."""
    reached = set()
    for place, texts in courses.items():
        ends = [text for text in texts if text.startswith(ENDS)]
        if len(ends) != 1 or texts[-1] != ends[0]:
            yield place, "does not have exactly one end, as its last line"
            continue
        kind = next(kind for kind in ENDS if ends[0].startswith(kind))
        counts[kind.removesuffix(": ").removesuffix(" by GOTO of ")] += 1
        failing = [text for text in texts if '": fails, ' in text or text.startswith("no device meets")]
        jump = re.fullmatch(r"passed over by GOTO of (.+):(\d+)", ends[0])
        if kind == "stops there" and len(failing) != 1:
            yield place, "stops without exactly one key that fails"
        elif kind == "reached its end" and failing:
            yield place, "reached its end although a key fails"
        elif jump and ((jump[1], int(jump[2])) not in reached or len(texts) != 1):
            yield place, "is passed over by a rule that did not reach its end, or met a key"
        if kind == "reached its end":
            reached.add(place)
    for place in rules ^ courses.keys():
        yield place, "is a rule without lines, or not a rule"


def reported_as(item):
    """How a course reports what a line of an answer says: it contains one of these texts, perhaps with a quote before the value."""
    word, _, rest = item.partition(" ")
    name, _, value = rest.partition("=")
    if word in ("name", "owner", "group", "mode", "priority"):
        return [f"{word}={quote}{rest[:SHOWN]}" for quote in ("", '"')]
    if word in ("link", "tag"):
        return [f"{word} {quote}{rest[:SHOWN]}" for quote in ("", '"')]
    if word == "run":
        return [f"run {name.split(' ')[0]} "]
    if word in ("watch", "nowatch", "persist"):
        return [f"{word} added"]
    if not value:
        return [f"{word} {name} added", f'{name}=""']
    return [text[:SHOWN] for quote in ("", '"') for text in [f"{word} {name}={quote}{value}"] + [f"{name}={quote}{value}"] * (word == "env")]


def source_faults(plain, sources, courses, counts):
    """What is wrong with the lines of an answer after their sources; those that come from rules are counted."""
    if len(sources) != len(plain):
        yield "the answer", "has more or fewer lines with --sources"
    for line, sourced in zip(plain, sources):
        found = SOURCE.fullmatch(sourced)
        if line.startswith(("event ", "note ")):
            if line != sourced:
                yield line, "differs with --sources"
        elif not found or found[3] != line:
            yield line, "is not the line after its source"
        elif found[1]:
            counts["lines from rules"] += 1
            texts = courses[found[1], int(found[2])]
            if not any(reported in text for reported in reported_as(line) for text in texts):
                yield line, f"is not reported by {found[1]}:{found[2]}"


def answer_faults(answers, rules, counts):
    """What is wrong with the answers to one block, by the way in which they were asked for."""
    plain, why = answers["plain"], answers["why"]
    end = len([line for line in why if not line.startswith("why ")])
    if why[:end] != plain:
        yield "the answer", "has different lines with --why"
    if answers["both"] != answers["sources"] + why[end:]:
        yield "the answer", "has different lines with both options"
    courses = collections.defaultdict(list)
    for reported in map(read_why, why[end:]):
        courses[reported.file, reported.line].append(reported.text)
    counts["keys"] += sum(map(len, courses.values())) - len(courses)
    yield from source_faults(plain, answers["sources"], courses, counts)
    yield from end_faults(courses, rules, counts)


def compare(runs, blocks, files, plainly):
    """Asks for all blocks in each way, and reports what is wrong; returns how much is, and what was counted."""
    answers, messages = {}, ""
    for way in runs.options:
        answers[way], messages = runs.answers(way, blocks)
    rules, not_read = read_plainly(files, messages)
    places = {(rule.file, rule.line) for rule in rules} | not_read.keys()
    counts, wrong = collections.Counter(rules=len(rules)), 0
    for at, block in enumerate(blocks):
        faults = [("the answer", "is missing in some way of asking")]
        if all(at < len(found) for found in answers.values()):
            faults = list(answer_faults({way: found[at] for way, found in answers.items()}, places, counts))
            if plainly:
                lines, whys = plain_courses.answers(rules, block, not_read.values())
                wanted = [f"{source}: {line}" if source else line for source, line in lines] + whys
                faults += [(line, "is reported only by the program or only by the plain reading") for line in sorted(set(wanted) ^ set(answers["both"][at]))]
                faults += [("the answer", "has its lines in another order")] * (not faults and wanted != answers["both"][at])
        wrong += len(faults)
        path = re.search("^P: (.*)", block, re.M)[1]
        for about, fault in faults:
            print(f"{path}: {about if isinstance(about, str) else ':'.join(map(str, about))} {fault}")
    return wrong, counts


def main(program, root, count=20):
    program, root = os.path.realpath(program), os.path.realpath(root)
    files = rules_files(root)
    blocks = ["\n".join(lines) for lines in REAL.values()] + devices_of_this_machine(int(count))
    wrong = 0
    with tempfile.TemporaryDirectory() as folder:
        for name, database in (("no database", [os.devnull]), ("the database", ["-r", root])):
            runs = Runs(program, root, files, database, folder)
            found, counts = compare(runs, blocks, files, database == [os.devnull])
            print(f"{len(blocks)} events over {name} and the rules of {len(files)} files: {found} differences")
            print("  " + ", ".join(f"{word}: {number}" for word, number in sorted(counts.items())))
            wrong += found
        start, times = runs.times(blocks)
    print(f"start {start:.2f} s; an event " + ", ".join(f"{way} {time:.3f} ms" for way, time in times.items()))
    return wrong > 0


if __name__ == "__main__":
    if len(sys.argv) not in (3, 4):
        sys.exit(__doc__)
    sys.exit(main(*sys.argv[1:]))
