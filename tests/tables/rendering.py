"""Substitutions: what each stands for, and what becomes of a text in the name of a link or of a network device."""
from tables.kinds.row import Row, as_bytes

# A disk without a node or a number, below another device; one program answers `ab cd ef`, another `ab cd`.
DISK = (
    b"C: add\nP: /devices/x/cciss!c0d1\nA: a=x;y? \nE: L= a  b \nE: A=\xa4\nQ: p\nR: 0 ab cd ef\nQ: q\nR: 0 ab cd\n"
    b"P: /devices/x\nV: drive\nN: bus/x\nA: b=1\n"
)
DISK_EVENT = b"event add /devices/x/cciss!c0d1\n"
DISK_ENV = b"env A=\xa4\nenv ACTION=add\nenv DEVPATH=/devices/x/cciss!c0d1\nenv L= a  b \n"

# A network device with a node, a number and links, and no parent.
NETWORK = b"C: add\nP: /devices/eth0\nU: net\nN: n0\nD: 8:017\nS: one\nS: two\nE: L= a  b \n"
NETWORK_LINKS = b"link one\nlink two\n"
NETWORK_ENV = (
    b"env ACTION=add\nenv DEVNAME=/dev/n0\nenv DEVPATH=/devices/eth0\nenv L= a  b \n"
    b"env MAJOR=8\nenv MINOR=017\nenv SUBSYSTEM=net\n"
)


def events(name, rules, block, *output):
    """A run of `events` over one rules file and one block."""
    return Row(name, "events -r none r.rules", {"r.rules": b"\n".join(rules) + b"\n"}, block, b"".join(output) + b"\n")


def commands(pairs):
    """Rules that render templates, and their results: RUN takes a text as it is, and keeps an empty one, too."""
    rules = [b'RUN+="' + as_bytes(template) + b'"' for template, _text in pairs]
    return rules, b"".join(b"run program " + as_bytes(text) + b"\n" for _template, text in pairs)


def of_disk(name, first, *pairs):
    """What templates stand for at the disk, after a first rule."""
    rules, runs = commands(pairs)
    return events(name, [first, *rules], DISK, DISK_EVENT, DISK_ENV, runs)


def of_network(name, *pairs):
    """The same at the network device."""
    rules, runs = commands(pairs)
    return events(name, rules, NETWORK, b"event add /devices/eth0\n", NETWORK_LINKS, NETWORK_ENV, runs)


def safe(name, *pairs, program=b"p"):
    """Templates as the name of a device that is not a network device: the note has the text, with its spaces unchanged."""
    rules = [b'PROGRAM=="' + program + b'"', *(b'NAME="' + template + b'"' for template, _text in pairs)]
    notes = [b"note r.rules:%d: name ignored: %b\n" % (line, text) for line, (_template, text) in enumerate(pairs, 2)]
    return events(name, rules, DISK, DISK_EVENT, DISK_ENV, *notes)


def links(rule, *names):
    """The links that a rule gives the disk."""
    reported = [b"link " + link + b"\n" for link in names]
    return events(f"links of {rule!r}", [b'PROGRAM=="p"', rule], DISK, DISK_EVENT, *reported, DISK_ENV)


def network_name(rule, text):
    """The name that a rule gives the network device."""
    return events(
        f"the name of {rule!r}",
        [rule],
        NETWORK,
        b"event add /devices/eth0\n",
        b"name " + text + b"\n",
        NETWORK_LINKS,
        NETWORK_ENV,
    )


PLAIN = [
    of_disk(
        "the value of each substitution",
        b'PROGRAM=="p"',
        ("$kernel", "cciss/c0d1"),
        ("%n", "1"),
        ("$major", "0"),
        ("$devnode", ""),
        ("$attr{a}", "x_y?"),
        ("%c{2}", "cd"),
        ("%c{2+}", "cd ef"),
        ("%c{4}", ""),
    ),
    of_disk(
        "each substitution at a disk below the selected device",
        b'KERNELS=="x", PROGRAM=="p"',
        ("%k", "cciss/c0d1"),
        ("$number", "1"),
        ("$devpath", "/devices/x/cciss!c0d1"),
        ("%p", "/devices/x/cciss!c0d1"),
        ("$id", "x"),
        ("%b", "x"),
        ("$driver", "drive"),
        ("%s{a}", "x_y?"),
        ("$attr{b}", "1"),
        ("$attr{c}", ""),
        ("$env{L}", " a  b "),
        ("%E{L}", " a  b "),
        ("$env{M}", ""),
        ("%M", "0"),
        ("$minor", "0"),
        ("%m", "0"),
        ("$result", "ab cd ef"),
        ("%c", "ab cd ef"),
        ("$result{3+}", "ef"),
        ("$result{4+}", ""),
        ("%c{02}", "cd"),
        ("$parent", "bus/x"),
        ("%P", "bus/x"),
        ("$name", "cciss/c0d1"),
        ("$links", ""),
        ("$root", "/dev"),
        ("%r", "/dev"),
        ("$sys", "/sys"),
        ("%S", "/sys"),
        ("%N", ""),
        ("$$", "$"),
        ("%%", "%"),
        ("$kernelx%%", "cciss/c0d1x%"),
        ("%k{1}", "cciss/c0d1{1}"),
        ("a\\tb", "a\\x5Ctb"),
    ),
    of_network(
        "each substitution at a network device without a parent and without a selected device",
        ("$kernel", "eth0"),
        ("$number", "0"),
        ("$devnode", "/dev/n0"),
        ("%N", "/dev/n0"),
        ("$major:$minor", "8:017"),
        ("%M:%m", "8:017"),
        ("$links", "one two"),
        ("[$id$driver$parent$result]", "[]"),
        ("$name", "eth0"),
    ),
]

LINKS = [
    safe(
        "substitutions and special characters in NAME",
        (b"$env{L}", b"a_b"),
        (b"%c", b"ab cd ef"),
        (b"\\x2F\\x2", b"\\x5Cx2F\\x5Cx2"),
        (b"\\y", b"_y"),
        (b"a\tb", b"a b"),
        (b"\xc3\xa4", b"\xc3\xa4"),
        (b"\xc3", b"_"),
        (b"\xc0\xaf", b"__"),
        (b"$attr{a}", b"x_y_"),
        (b"09AZaz#+-.:=@_/", b"09AZaz#+-.:=@_/"),
        (b"!()*,;<>?[]^`{|}~", b"_" * 17),
    ),
    safe("a result keeps its spaces", (b"%c", b"ab cd"), program=b"q"),
    safe("UTF-8 is checked in the whole rendered text", (b"\xc3$env{A}", b"\xc3\xa4"), (b"$env{A}", b"_"), (b"\\$kernel", b"_cciss/c0d1")),
    links(b'SYMLINK+="$env{L}"', b"a_b"),
    links(b'SYMLINK+="x/$env{L} y;z"', b"x/a_b", b"y_z"),
    links(b'SYMLINK+="%c"', b"ab", b"cd", b"ef"),
    links(b'SYMLINK+="\\x2F\\x2"', b"\\x5Cx2F\\x5Cx2"),
    links(b'SYMLINK+="a\tb"', b"a", b"b"),
    links(b'SYMLINK+="a a"', b"a"),
    links(b'SYMLINK+="\xc3$env{A}"', b"\xc3\xa4"),
    links(b'SYMLINK+="x;y $env{L}", OPTIONS="string_escape=none"', b"x;y", b"a", b"b"),
    links(b'SYMLINK+="a b $env{L}", OPTIONS="string_escape=replace"', b"a_b_a_b"),
    network_name(b'NAME="$env{L}"', b"a_b"),
    network_name(b'NAME="a b;c"', b"a_b_c"),
    network_name(b'NAME="a b;c", OPTIONS="string_escape=none"', b"a b;c"),
]


def length(letters, *ends):
    """A text of a property of so many letters, followed by a digit."""
    block = b"C: add\nP: /d1\nE: L=" + b"a" * letters + b"\n"
    own = b"env ACTION=add\nenv DEVPATH=/d1\nenv L=" + b"a" * letters + b"\n"
    return events(f"a text of {letters + 1} bytes", [b'ENV{X}="$env{L}%n"'], block, b"event add /d1\n", own, *ends)


TOO_LONG = b"note r.rules:1: text too long: ENV{X}\n"

LENGTHS = [
    length(16_383, b"env X=" + b"a" * 16_383 + b"1\n"),
    length(16_384, TOO_LONG),
    length(16_385, TOO_LONG),
]

ROWS = [*PLAIN, *LINKS, *LENGTHS]
