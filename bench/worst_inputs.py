"""The most expensive inputs of each kind that were found: what each takes, and what ten times as much of one thing in it
takes. That should be ten times as much, more or less: a case that takes more than fifteen times as much fails. If the
definition itself compares everything with everything, its square is allowed, and the case says so. Each case of `events` and
`verify` is run with `--udev`, too.

usage: worst_inputs.py PROGRAM [WORD]    WORD: only the cases whose names have it
"""
import contextlib
import os
import struct
import sys
import tempfile
from collections import namedtuple

from timing import Run, take

# What a case is: its name, how much of a thing it has, who makes a run of so much, and how many times as much ten times
# as much may take. A run is the words of a command, its files by name, and its input.
Case = namedtuple("Case", "name count make most", defaults=(15,))

# A run below so many seconds is only start and end.
SHORT = 0.2


class Link(str):
    """The path that a symbolic link leads to, among the files of a run."""


DEVICE = "C: add\nP: /a\nU: u\n"
LONG = "a" * 60_000


def events(rules, block=DEVICE, **files):
    """Rules over blocks; the files of a folder `none` are the database."""
    return ["events", "-r", "none", "r.rules"], {"r.rules": rules, **files}, block


def told(option, rules):
    """Rules over a device, with what an option says of them."""
    return ["events", "-r", "none", option, "r.rules"], {"r.rules": rules}, DEVICE


def told_as_udev(option, rules):
    """The same, evaluated as udev does."""
    words, files, block = told(option, rules)
    return ["events", "--udev", *words[1:]], files, block


def as_udev(rules, block=DEVICE):
    """Rules over blocks, evaluated as udev does."""
    return ["events", "--udev", "-r", "none", "r.rules"], {"r.rules": rules}, block


def named_by(files, count):
    """As many interfaces that get their names by .link files."""
    own = "".join(f"{line}\n" for line in ("U: net", "E: INTERFACE=eth0", "E: IFINDEX=2", "A: flags=0x1002"))
    words = ["events", "--udev", "-r", "root", "r.rules"]
    placed = {f"root/etc/systemd/network/{name}": text for name, text in files.items()}
    return words, {"r.rules": 'IMPORT{builtin}="net_setup_link"\n', **placed}, f"C: add\nP: /a\n{own}\n" * count


def interfaces(count):
    """.link files that are for no interface, each with a drop-in, and 10 interfaces."""
    match = "[Match]\nOriginalName=none\n"
    drop_ins = {f"{number:05}.link.d/a.conf": "[Link]\nName=a\n" for number in range(count)}
    return named_by({f"{number:05}.link": match for number in range(count)} | drop_ins, 10)


def importing(rules, files):
    """Rules that import files of the root."""
    return ["events", "--udev", "-r", "root", "r.rules"], {"r.rules": rules, **{f"root/{name}": text for name, text in files.items()}}, DEVICE


def verify(rules):
    return ["verify", "r.rules"], {"r.rules": rules}, ""


def owned(count):
    """As many users and groups, and rules with one of each."""
    files = {"r.rules": each('OWNER="a#", GROUP="a#"\n', count), "users": each("a#:x:#:0::/:/a\n", count), "groups": each("a#:x:#:\n", count)}
    return ["verify", "--udev", "--users", "users", "--groups", "groups", "r.rules"], files, ""


def many_messages(form, count):
    """40 lines of as many messages each, in a format."""
    return ["verify", f"--format={form}", "r.rules"], {"r.rules": (",".join(['TAG+="b"'] * count) + "\n") * 40}, ""


def with_accounts(count):
    """Rules that name as many users and groups as there are."""
    files = {"users": each("u#:x:#:#::/:/bin/sh\n", count), "groups": each("g#:x:#:\n", count)}
    return ["verify", "--udev", "--users", "users", "--groups", "groups", "r.rules"], {"r.rules": each('OWNER="u#", GROUP="g#"\n', count), **files}, ""


def checked_links(text):
    return ["verify", "--links", "a.link"], {"a.link": text}, ""


def links_with_drop_ins(count):
    """.link files with a drop-in each, which are checked."""
    files = {f"root/etc/systemd/network/{number:05}.link": "[Match]\n" for number in range(count)}
    drop_ins = {f"root/etc/systemd/network/{number:05}.link.d/a.conf": "[Link]\n" for number in range(count)}
    return ["verify", "--links", "-r", "root"], files | drop_ins, ""


def linted(count):
    """Rules files below a root that are checked with lints."""
    return ["verify", "--lint", "-r", "root"], {f"root/etc/udev/rules.d/{number:05}.rules": 'KERNEL=="a", TAG+="b"\n' for number in range(count)}, ""


def query(text, modalias="m"):
    return ["query", modalias, "t.hwdb"], {"t.hwdb": text}, ""


def line(token):
    """A rule with as many copies of a token as fit into a line."""
    return ", ".join([token] * (16_384 // (len(token) + 2))) + "\n"


def text_of(piece):
    """A property that is set to as many copies of a substitution as fit into a line."""
    return 'ENV{X}="' + piece * (16_300 // len(piece)) + '"\n'


def each(template, count):
    """A text for each number."""
    return "".join(template.replace("#", str(number)) for number in range(count))


def chain(lines, first=""):
    """The 64 devices of a chain, each with a subsystem and these lines."""
    return "C: add\n" + "".join(f"P: {'/a' * (64 - above)}\nU: u\n{lines}{first if above == 0 else ''}" for above in range(64))


def full(template):
    """A block of 65,000 bytes of lines with a number each."""
    return DEVICE + each(template, 65_000 // (len(template) + 4)) + "\n"


def interface_of(count):
    """An interface whose path has eight components for each of as many devices that are described by their paths."""
    own = "".join(f"{line}\n" for line in ("U: net", "E: IFINDEX=2", "A: iflink=2", "A: type=1"))
    return f"C: add\nP: {'/a' * (8 * count)}\n{own}" + "".join(f"K: /{number:04}/subsystem=x\n" for number in range(count)) + "\n"


def printing(count):
    """An answer that sets as many properties, and then removes them, starting with the first."""
    return f"{DEVICE}Q: /p\nR: 0 " + each("a#=1\r", count) + each('a#=""\r', count) + "\n"


def linked(count):
    """Rules files below a root that are links, which lead on through 38 others, each along a path of 1,600 names."""
    there = "d/../" * 800
    return ["verify", "-r", "root"], {
        "root/d/x": "", "root/l38": "", **{f"root/l{number}": Link(f"{there}l{number + 1}") for number in range(38)},
        **{f"root/etc/udev/rules.d/{number:05}.rules": Link(f"/{there}l0") for number in range(count)}}, ""


def falling(count):
    """An index of one node whose properties have descending keys."""
    keys = b"".join(b"%07d" % number for number in range(count, 0, -1))
    node = struct.pack("<BBHIIIII", 0, 0, 0, 0, 1, 1, 0, 0) + struct.pack("<BBHIIIII", 3, 0, 0, 0, 2, 0, 0, count)
    values = b"".join(struct.pack("<IIIII", 7 * number, 7, 0, 0, number) for number in range(count))
    return b"devdryhw" + struct.pack("<IIIIII", 1, 2, count, 0, len(keys), 0) + node + values + keys


STARS = "".join(f"{'*' * count}b\n A=1\n\n" for count in range(1, 50))

RENDERING = [
    Case("lines of words after the end of a result", 3,
         lambda n: events('PROGRAM="p"\n' + text_of("%c{65535}") * n, DEVICE + "Q: p\nR: 0 " + "a " * 100 + "\n")),
    Case("lines of a long attribute", 2, lambda n: events(text_of("$attr{x}") * n, f"{DEVICE}A: x={LONG}\n")),
    Case("lines of a long property, in a link", 2,
         lambda n: events(text_of("$env{x}").replace("ENV{X}", "SYMLINK+") * n, f"{DEVICE}E: x={LONG}\n")),
    Case("lines of a link of bytes that begin UTF-8", 300,
         lambda n: events('SYMLINK+="%E{x}"\n' * n, DEVICE.encode() + b"E: x=" + b"\xf0" * 16_384 + b"\n")),
    Case("lines of short substitutions", 30, lambda n: events(text_of("%k") * n)),
    Case("links, with $links after each", 1_000, lambda n: events(each('SYMLINK+="l#", ENV{X}="$links"\n', n))),
    Case("different commands", 2_000, lambda n: events(each('RUN+="c#"\n', n))),
]

RULES = [
    Case("jumps to labels after all of them", 10_000, lambda n: verify(each('GOTO="l#"\n', n) + each('LABEL="l#"\n', n))),
    Case("unused labels, and jumps without a label", 10_000, lambda n: verify(each('LABEL="a#"\nGOTO="b#"\n', n))),
    Case("lines of assignments", 20, lambda n: events(line('TAG="a"') * n)),
    Case("lines of one long set", 20, lambda n: verify(f'KERNEL=="[{LONG[:16_360]}]"\n' * n)),
    Case("lines of unclosed brackets", 3, lambda n: verify(f'KERNEL=="{"[" * 16_370}"\n' * n)),
    Case("lines of tokens without a comma", 20, lambda n: verify(('TAG="a"' * 2_300 + "\n") * n)),
    Case("users and groups, and rules with one of each", 800, owned),
    Case("files of four rules that are looked at for lints", 800, lambda n: (["verify", "--lint", "-r", "."], {
        f"etc/udev/rules.d/{number:05}.rules": each('KERNEL=="a#", NAME="n"\n', 4) for number in range(n)}, "")),
    *(Case(f"tokens {token} of each of 40 lines", 80, lambda n, token=token: verify((each(f"{token}, ", n) + 'TAG+="x"\n') * 40))
      for token in ('KERNEL=="a*#"', 'KERNEL=="a|#"', 'KERNEL!="a|#"', 'ATTR{#}=="a"', 'SYMLINK+="#"')),
    Case("lines joined into one", 100_000, lambda n: verify("a\\\n" * n)),
    Case("bytes of a line", 1_000_000, lambda n: verify('"' * n)),
    Case("messages", 10_000, lambda n: verify("x\n" * n)),
    Case("notes", 10_000, lambda n: events('TEST=="/x"\n' * n)),
    Case("users and groups, and rules that name each", 2_000, with_accounts),
    Case("tests of 8,000 tags", 300, lambda n: events('TAGS=="x"\n' * n, full("G: #\n"))),
    Case("patterns over 4,000 properties", 30, lambda n: events('IMPORT{parent}="*x|*y|*z"\n' * n, full("E: #=\n").replace(
        "P: /a\n", "P: /a/b\nU: u\nP: /a\n"))),
    Case("searches along 64 devices", 1_000, lambda n: events('ATTRS{5}=="1", ATTRS{6}=="*2"\n' * n, chain(each("A: #=1\n", 100)))),
    Case("bytes of a pattern that almost fits", 800, lambda n: events(f'ATTR{{x}}=="*{"a" * n}b"\n', f"{DEVICE}A: x={LONG}\n")),
    Case("stars in a pattern", 800, lambda n: events(f'ATTR{{x}}=="{"*a" * n}*b"\n' * 10, f"{DEVICE}A: x={LONG}\n")),
    Case("alternatives of a value", 800, lambda n: events(f'ATTR{{x}}=="{"|" * n}b"\n' * 100, f"{DEVICE}A: x=a\n")),
    # all links after one that is removed are moved up
    Case("links that are added and removed", 2_000,
         lambda n: events(each('SYMLINK+="l#"\n', n) + each('SYMLINK-="l#"\n', n)), 150),
]

FORMATS = [
    *(Case(f"messages of each of 40 lines, {form}", 180, lambda n, form=form: many_messages(form, n))
      for form in ("plain", "gcc", "github", "json", "human", "gitlab", "sarif")),
]

TOLD = [
    Case("links with their sources", 2_000, lambda n: told("--sources", each('SYMLINK+="l#"\n', n)), 12),
    Case("tags with their sources", 2_000, lambda n: told("--sources", each('TAG+="t#"\n', n)), 12),
    Case("properties with their sources", 2_000, lambda n: told("--sources", each('ENV{P#}="#"\n', n)), 12),
    Case("links, each with what its rule did", 2_000, lambda n: told("--why=r.rules", each('SYMLINK+="l#"\n', n)), 12),
    Case("tags, each with what its rule did", 2_000, lambda n: told("--why=r.rules", each('TAG+="t#"\n', n)), 12),
    Case("properties, each with what its rule did", 2_000, lambda n: told("--why=r.rules", each('ENV{P#}="#"\n', n)), 12),
    Case("commands, each with what its rule did", 2_000, lambda n: told("--why=r.rules", each('RUN+="c#"\n', n)), 12),
    *(Case(f"{what} as udev sets them, {how}", 2_000, lambda n, option=option, key=key: told_as_udev(option, each(f'{key}{{a#}}="#"\n', n)), 12)
      for what, key in (("attributes", "ATTR"), ("parameters", "SYSCTL"))
      for how, option in (("with their sources", "--sources"), ("each with what its rule did", "--why=r.rules"))),
    *(Case(f"{what} {how}", 400, lambda n, key=key, option=option: told(option, each(f'{key}{{a#}}="#"\n', n)))
      for what, key in (("attributes", "ATTR"), ("kernel parameters", "SYSCTL"))
      for how, option in (("with their sources", "--sources"), ("each with what its rule did", "--why=r.rules"), ("as JSON", "--format=json"))),
]

UDEV = [
    Case("links, and rules with $links in the name of an attribute of 64 devices", 200,
         lambda n: as_udev(each('SYMLINK+="l#"\n', n) + 'ATTRS{%L}=="x", TAG+="t"\n' * n, chain("", "D: 8:0\n"))),
    Case("rules with many $links in the name of an attribute of 64 devices", 1,
         lambda n: as_udev(each('SYMLINK+="l#"\n', 100) + f'ATTRS{{{"%L" * 8_000}}}=="x", TAG+="t"\n' * n, chain("", "D: 8:0\n"))),
    Case("devices that are described by their paths, and components of a path", 160,
         lambda n: as_udev('IMPORT{builtin}="net_id"\n' * 20, interface_of(n))),
    Case(".link files with a drop-in each, and interfaces that none is for", 300, interfaces),
    Case("lines of a .link file", 20_000, lambda n: named_by({"a.link": "[Match]\n" + each("OriginalName=x#\n", n) + "[Link]\nName=a\n"}, 3)),
    Case("files that rules import", 500, lambda n: importing(each('IMPORT{file}="/f#"\n', n), {f"f{number}": "A=1\n" for number in range(n)})),
    Case("imports of a file of 65,000 bytes", 20, lambda n: importing('IMPORT{file}="/f"\n' * n, {"f": each("A#=1\n", 6_000)})),
    # as with links, all properties after one that is removed are moved up
    Case("properties that are imported and removed", 300, lambda n: as_udev('IMPORT{program}="/p"\n' * 100, printing(n)), 150),
]

LINKS = [
    Case(".link files that are checked with a drop-in each", 300, links_with_drop_ins),
    Case("unknown keys of a .link file", 20_000, lambda n: checked_links("[Link]\n" + each("Nmae#=\n", n))),
    Case("patterns of a .link file that is checked", 20_000, lambda n: checked_links("[Match]\n" + each("OriginalName=x#\n", n))),
    Case("words of a line of a .link file", 20_000, lambda n: checked_links("[Match]\nPath=" + each("x# ", n) + '"\n')),
    Case("lines of a .link file that go on", 100_000, lambda n: checked_links("[Match]\nPath=x" + " \\\n" * n)),
]

BLOCKS = [
    Case("rules that no block met", 10_000, lambda n: told("--unused", each('ENV{A}=="1", ENV{B#}=="#", RESULT=="#", NAME="n"\n', n))),
    Case("blocks that meet no rule", 5_000, lambda n: (["events", "-r", "none", "--unused", "r.rules"], {"r.rules": each('ENV{B#}=="#", NAME="n"\n', 20)}, (DEVICE + "\n") * n)),
    Case("properties as JSON", 2_000, lambda n: told("--format=json", each('ENV{P#}="#"\n', n)), 12),
    Case("properties as JSON with their sources", 2_000,
         lambda n: (["events", "-r", "none", "--format=json", "--sources", "r.rules"], {"r.rules": each('ENV{P#}="#"\n', n)}, DEVICE + "\n"), 12),
    Case("questions", 3_000, lambda n: (["events", "-r", "none", "--questions", "r.rules"], {"r.rules": each('PROGRAM!="p#"\n', n)}, DEVICE)),
    *(Case(f"blocks full of {template[0]} lines", 10, lambda n, template=template: events("", full(template) * n))
      for template in ["E: #=1\n", "A: #=1\n", "G: #\n", "S: #\n", "B: #=1\n", "K: #=1\n", "Q: #\nR: 0\n"]),
    Case("blocks full of O lines", 10, lambda n: events("", ("C: a\nP: /a\nQ: p\nR: 0\n" + each("O: #\n", 6_000) + "\n") * n)),
    Case("blocks of 64 devices", 100, lambda n: events("", (chain(each("A: #=1\n", 100)) + "\n") * n)),
    Case("small blocks", 10_000, lambda n: events("", "C: a\nP: /a\n\n" * n)),
    Case("empty lines", 1_000_000, lambda n: events("", "\n" * n)),
]

DATABASE = [
    Case("modaliases, one a line", 10_000, lambda n: (["query", "-", "t.hwdb"], {"t.hwdb": each("m#*\n A=#\n\n", 1_000)}, each("m#\n", n))),
    Case("modaliases of 65,536 bytes", 3, lambda n: (["query", "-", "t.hwdb"], {"t.hwdb": STARS}, ("a" * 65_536 + "\n") * n)),
    Case("properties with descending keys", 5_000, lambda n: query("m\n" + "".join(f" k{key:07}=\n" for key in range(n, 0, -1)))),
    Case("properties of an index with descending keys", 5_000, lambda n: (["query", "--index", "i", "m"], {"i": falling(n)}, "")),
    Case("properties of one long match", 50, lambda n: query("m" * 16_384 + "\n" + " a=\n" * n)),
    Case("properties of 300 matches", 300, lambda n: query("m\n" * 300 + " a=\n" * n)),
    Case("matches of unclosed brackets", 3, lambda n: query(("[" * 16_384 + "\n") * n + " a=\n")),
    Case("bytes of a modalias through 16,384 stars", 20, lambda n: query("*" * 16_384 + "\n a=\n", "a" * n)),
    Case("records", 10_000, lambda n: (["update", "t.hwdb"], {"t.hwdb": each("m#*\n A=#\n\n", n)}, "")),
    Case("look-ups along 64 devices", 3, lambda n: events(
        'IMPORT{builtin}="hwdb"\n' * n, chain(f"E: MODALIAS={'a' * 800}\n"), **{"none/etc/udev/hwdb.d/a.hwdb": STARS})),
    Case("look-ups with a long prefix", 1, lambda n: events(
        'IMPORT{builtin}="hwdb --lookup-prefix=%E{p}"\n' * n, chain("E: MODALIAS=x\n", f"E: p={'a' * 16_000}\n"),
        **{"none/etc/udev/hwdb.d/a.hwdb": STARS})),
    Case("files of two folders", 1_000, lambda n: (["verify", "-r", "."], {
        **{f"etc/udev/rules.d/b{number:05}.rules": "" for number in range(n)},
        **{f"run/udev/rules.d/a{number:05}.rules": "" for number in range(n)}}, "")),
    Case("rules files below a root, each behind 39 links with 1,600 names", 2, linked),
    Case("rules files below a root that are checked with lints", 500, linted),
    Case("options of a file", 5_000, lambda n: (["verify", "--options", "o", "r"], {"r": "", "o": "--ignore=S2\n" * n}, "")),
    Case("lines of the standard input as rules", 10_000, lambda n: (["verify", "-"], {}, "x\n" * n)),
    Case("lines with what no editor shows", 50_000, lambda n: (["verify", "--lint", "r"], {"r": "# \u00a0\r\n" * n}, "")),
    Case("named files", 2_000, lambda n: (["verify", *["r"] * n], {"r": ""}, "")),
]


def as_bytes(text):
    return text if isinstance(text, bytes) else text.encode()


@contextlib.contextmanager
def prepared(program, case, count):
    """A run of so much, in a folder of its own."""
    words, files, block = case.make(count)
    with tempfile.TemporaryDirectory() as folder:
        os.chdir(folder)
        for name, text in {"input": block, **files}.items():
            os.makedirs(os.path.dirname(os.path.join(folder, name)), exist_ok=True)
            if isinstance(text, Link):
                os.symlink(text, name)
                continue
            with open(name, "wb") as file:
                file.write(as_bytes(text))
        yield Run([program, *words], "input", "output", (0, 1))
        os.chdir("/")


def taken(program, case, count):
    """What a run of so much takes."""
    with prepared(program, case, count) as run:
        return min(take(run) for _ in range(2))


def is_right(program, case):
    """Reports what a case takes, and returns whether ten times as much takes no more than it may."""
    once, tenfold = taken(program, case, case.count), taken(program, case, 10 * case.count)
    times = tenfold.seconds / max(once.seconds, 0.001)
    right = tenfold.seconds < SHORT or times <= case.most
    print(f"{case.count} {case.name}: {once.seconds:.2f} s, ten times as many: {tenfold.seconds:.2f} s and {tenfold.peak:.0f} MB, "
          f"{times:.0f} times as long{'' if right else ', too long'}", flush=True)
    return right


def with_udev(case):
    """The same with `--udev`, if its command has that and its words don't."""
    def made(count):
        words, files, block = case.make(count)
        return [words[0], "--udev", *words[1:]], files, block
    words = case.make(1)[0]
    has = words[0] in ("events", "verify") and not {"--udev", "--links"} & set(words)
    return [case, case._replace(name=f"{case.name}, as udev", make=made)] if has else [case]


def main(program, word):
    groups = [*RENDERING, *RULES, *FORMATS, *TOLD, *UDEV, *LINKS, *BLOCKS, *DATABASE]
    cases = [both for case in groups for both in with_udev(case) if word in both.name]
    wrong = [case.name for case in cases if not is_right(program, case)]
    print(f"{len(cases) - len(wrong)} of {len(cases)} expensive inputs take no more than about ten times as long for ten times as much")
    return bool(wrong)


if __name__ == "__main__":
    sys.exit(main(os.path.realpath(sys.argv[1]), " ".join(sys.argv[2:])))
