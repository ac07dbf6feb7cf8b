"""Lists of links and tags, and tables of names with values, as assignments change them."""
from tables.kinds.answered import answered, answer, block
from tables.kinds.row import Row


def refused(name, line, text, *lines):
    """A block of these lines after its path that is faulty in one of its lines."""
    return Row(
        name,
        "events -r none r.rules",
        {"r.rules": ""},
        input=block("/x") + block("/d", *lines),
        output=answer("/x", []),
        messages=f"block 2, line {line}: {text}\n",
        status=1,
    )


# more tags than fit into any small table
MANY = [f"t{number}" for number in range(1000)]

ROWS = [
    answered("links of a block keep their order", [], (["S: b", "S: a"], ["link b", "link a"])),
    answered("tags of a block keep their order", [], (["G: b", "G: a"], ["tag b", "tag a"])),
    refused("a link of a block given twice", 5, "given twice", "S: b", "S: a", "S: b"),
    refused("a tag of a block given twice", 5, "given twice", "G: b", "G: a", "G: b"),
    refused("a property of a block given twice", 5, "given twice", "E: b=1", "E: a=2", "E: b=3"),
    refused("an attribute of a block given twice", 5, "given twice", "A: b=1", "A: a=2", "A: b=3"),
    refused("a program of a block given twice", 7, "given twice", "Q: b", "R: 0", "Q: a", "R: 0", "Q: b", "R: 0"),
    refused("a property of a block without =", 3, "pair", "E: a"),
    answered("the value of a property begins after the first =", [], (["E: a=b=c"], ["env a=b=c"])),
    answered(
        "one name may be a link, a tag, a property and an attribute",
        [],
        (["S: b", "G: b", "E: b=1", "A: b=1"], ["link b", "tag b", "env b=1"]),
    ),
    answered(
        "links are added at the end, each once",
        ['SYMLINK+="a"', 'SYMLINK+="b a b"'],
        ([], ["link a", "link b"]),
        (["S: b"], ["link b", "link a"]),
    ),
    answered("links are removed", ['SYMLINK+="a b c"', 'SYMLINK-="a c x"'], ([], ["link b"])),
    answered("links are replaced", ['SYMLINK="b a"'], (["S: x", "S: a"], ["link b", "link a"])),
    answered("an empty text removes all links", ['SYMLINK=""'], (["S: x"], [])),
    answered("an empty text adds no link", ['SYMLINK+=""'], (["S: x"], ["link x"])),
    answered(
        "a removed link no longer matches",
        ['SYMLINK-="a"', 'SYMLINK=="a", TAG="a"', 'SYMLINK=="b", TAG+="b"'],
        (["S: a", "S: b"], ["link b", "tag b"]),
    ),
    answered("tags are added at the end, each once", ['TAG+="a"', 'TAG+="b"', 'TAG+="a"'], ([], ["tag a", "tag b"])),
    answered("tags are removed", ['TAG-="a"'], (["G: a", "G: b"], ["tag b"])),
    answered("tags are replaced", ['TAG="c"'], (["G: a", "G: b"], ["tag c"])),
    answered("a text is one tag", ['TAG+="a b"'], ([], ["tag a b"])),
    answered(
        "a device and its parent have many tags",
        ['TAG=="t999", ENV{OWN}="1"', 'TAGS=="t999", KERNELS=="p", ENV{ABOVE}="1"', 'TAG=="t1000", ENV{NONE}="1"', 'TAG+="t1000"'],
        (
            [*(f"G: {tag}" for tag in MANY), "P: /p", *(f"G: {tag}" for tag in MANY)],
            [*(f"tag {tag}" for tag in MANY), "tag t1000", "env ABOVE=1", "env OWN=1"],
        ),
        path="/p/d",
    ),
    answered(
        "an attribute has its last value at its first place",
        ['ATTR{b}="1", ATTR{a}="2", ATTR{b}="3"'],
        ([], ["attr b=3", "attr a=2"]),
    ),
    answered(
        "a kernel parameter has its last value at its first place",
        ['SYSCTL{b}="1", SYSCTL{a}="2", SYSCTL{b}="3"'],
        ([], ["sysctl b=3", "sysctl a=2"]),
    ),
    answered(
        "a label has its last value at its first place",
        ['SECLABEL{b}+="1", SECLABEL{a}+="2", SECLABEL{b}+="3"'],
        ([], ["label b=3", "label a=2"]),
    ),
    answered("labels are replaced", ['SECLABEL{b}+="1", SECLABEL{a}+="2"', 'SECLABEL{c}="3"'], ([], ["label c=3"])),
    answered(
        "properties are set, appended to and removed",
        ['ENV{A}="1", ENV{B}+="2", ENV{A}+="3", ENV{C}="", ENV{D}+=""'],
        (["E: C=x", "E: B=0", "E: D=d"], ["env A=1 3", "env B=0 2", "env D=d"]),
    ),
    answered(
        "properties are sorted by name",
        ['ENV{b}="1", ENV{a}="2", ENV{ab}="3", ENV{B}="4"'],
        ([], ["env B=4", "env a=2", "env ab=3", "env b=1"]),
    ),
    answered(
        "properties of a parent are set over the device's own",
        ['IMPORT{parent}="[ab]", TAG="done"'],
        (["E: a=0", "E: c=0", "P: /p", "E: b=1", "E: a=2", "E: x=3"], ["tag done", "env a=2", "env b=1", "env c=0"]),
        path="/p/d",
    ),
]
