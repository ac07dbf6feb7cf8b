"""Values with substitutions: which there are, what each gives, and what is not one."""
from tables.kinds.answered import answered
from tables.kinds.verified import verified

DISK = [
    "U: block", "V: sd", "N: sda1", "D: 8:1", "A: a=x y", "E: b=z", "S: one", "S: two", "Q: p", "R: 0 ab  cd ef ",
    "P: /p", "N: above", "U: scsi",
]

# what of this is in the answer, whatever the rules are
OF_DISK = ["link one", "link two", "env DEVNAME=/dev/sda1", "env MAJOR=8", "env MINOR=1", "env SUBSYSTEM=block", "env b=z"]

BARE_PATH = "/p/sda1"


def rendered(name, *values):
    """A run over a disk, for which a device and the result of a program are known: values, each with the text that it gives."""
    rules = [
        'SUBSYSTEMS=="block", PROGRAM=="p"',
        *(f'ENV{{T{number}}}="{value}"' for number, (value, _) in enumerate(values, 10)),
    ]
    return answered(
        name,
        rules,
        (DISK, OF_DISK + [f"env T{number}={text}" for number, (_, text) in enumerate(values, 10) if text]),
        path=BARE_PATH,
    )


def unknown(*values):
    """Lines with values that are not templates."""
    return [(f'ENV{{B}}="{value}"', f"V6 bad substitution: {value}") for value in values]


ROWS = [
    rendered(
        "substitutions by their long names",
        ("$kernel", "sda1"),
        ("$number", "1"),
        ("$devpath", "/p/sda1"),
        ("$id", "sda1"),
        ("$driver", "sd"),
        ("$attr{a}", "x y"),
        ("$env{b}", "z"),
        ("$major", "8"),
        ("$minor", "1"),
        ("$result", "ab  cd ef "),
        ("$parent", "above"),
        ("$name", "sda1"),
        ("$links", "one two"),
        ("$root", "/dev"),
        ("$sys", "/sys"),
        ("$devnode", "/dev/sda1"),
        ("$kernel$number$devpath$id$driver$attr{a}$env{b}$major$minor$result", "sda11/p/sda1sda1sdx yz81ab  cd ef "),
        ("$parent$name$links$root$sys$devnode", "abovesda1one two/dev/sys/dev/sda1"),
    ),
    rendered(
        "substitutions by their short names",
        ("%k", "sda1"),
        ("%n", "1"),
        ("%p", "/p/sda1"),
        ("%b", "sda1"),
        ("%s{a}", "x y"),
        ("%E{b}", "z"),
        ("%M", "8"),
        ("%m", "1"),
        ("%c", "ab  cd ef "),
        ("%P", "above"),
        ("%r", "/dev"),
        ("%S", "/sys"),
        ("%N", "/dev/sda1"),
        ("%k%n%p%b%s{a}%E{b}%M%m%c%P%r%S%N", "sda11/p/sda1sda1x yz81ab  cd ef above/dev/sys/dev/sda1"),
    ),
    rendered(
        "texts before and after a substitution",
        ("", ""),
        ("plain", "plain"),
        ("$kernelx%%", "sda1x%"),
        ("$env{a b}", ""),
        ("$env{b}}", "z}"),
        ("%k{x}", "sda1{x}"),
        ("$kernel{x}", "sda1{x}"),
        ("$$", "$"),
        ("$$kernel", "$kernel"),
        ("%%k", "%k"),
        ("$$$kernel", "$sda1"),
        ("$sys/fs", "/sys/fs"),
        ("$idle", "sda1le"),
        ("$namedisk", "sda1disk"),
    ),
    rendered(
        "words of a result",
        ("%c{1}", "ab"),
        ("%c{2}", "cd"),
        ("%c{3}", "ef"),
        ("%c{4}", ""),
        ("%c{02}", "cd"),
        ("%c{0000000000003}", "ef"),
        ("%c{65535}", ""),
        ("%c{1+}", "ab  cd ef "),
        ("%c{2+}", "cd ef "),
        ("%c{4+}", ""),
        ("%c{2+}%c{02}", "cd ef cd"),
        ("$result{2}", "cd"),
        ("$result{0002+}", "cd ef "),
    ),
    answered(
        "a property name with a blank",
        ['ENV{T}="$env{a b}%E{c=}"'],
        (["E: a b=1", "E: c=2"], ["env T=1", "env a b=1", "env c=2"]),
    ),
    answered(
        "substitutions at a device without lines",
        ['ENV{T}="<$id|$driver|$attr{a}|$env{b}|$major|$minor|$result|$parent|$links|$devnode|%n>"'],
        ([], ["env T=<||||0|0|||||>"]),
    ),
    answered(
        "an assigned name",
        ['NAME="lan"', 'ENV{T}="$name $kernel"'],
        (["U: net"], ["name lan", "env SUBSYSTEM=net", "env T=lan d"]),
    ),
    answered("$links has the current links", ['SYMLINK+="b"', 'ENV{T}="$links"'], (["S: a"], ["link a", "link b", "env T=a b"])),
    verified(
        "unknown substitutions",
        *unknown(
            "$nope",
            "$sysfs",
            "$sysfsx",
            "$tempnode",
            "50%",
            "$",
            "%",
            "$ kernel",
            "%x",
            "% k",
            "%K",
            "$Kernel",
            "$kerne",
            "$dev",
            "$att{a}",
            "$link",
            "a$",
            "%d",
            "%{k}",
        ),
    ),
    verified(
        "braces that are missing, empty or not closed",
        *unknown(
            "$attr",
            "$attrs{a}",
            "$attr {a}",
            "$env",
            "$env{}",
            "%s",
            "%E",
            "%s{a",
            "%E{}",
            "%c{2",
            "$result{",
            "$attr{}x}",
            "$env{a$kernel",
        ),
    ),
    verified(
        "invalid word numbers",
        *unknown(
            "%c{0}",
            "%c{0+}",
            "%c{65536}",
            "%c{65536+}",
            "%c{+}",
            "%c{}",
            "$result{2 }",
            "%c{ 2}",
            "%c{-1}",
            "%c{2++}",
            "%c{1x}",
            "%c{0x1}",
            "%c{256}%c{99999999999999999999}",
        ),
    ),
    verified(
        "a fault after other substitutions",
        *unknown("%k$env{}$nope", "$$$nope", "%%%", "$kernel$", "%c{1}%c{0}"),
        'ENV{B}="%c{65535}$result{1+}$sys$kernel%%$$%k{%%"',
    ),
]
