"""Which files of the folders are read, and in which order."""
from tables.kinds.answered import answer, block
from tables.kinds.row import Row

RULES = ["etc/udev/rules.d", "run/udev/rules.d", "usr/local/lib/udev/rules.d", "usr/lib/udev/rules.d"]
DATABASE = ["etc/udev/hwdb.d", "usr/lib/udev/hwdb.d"]


def rules(name, files, wanted):
    """A run of `events` over folders of rules: each file, by its folder's rank and its name, appends its text to a property."""
    return Row(
        f"rules: {name}",
        "events -r root",
        {f"root/{RULES[rank]}/{file}": f'ENV{{READ}}+="{text}"\n' for (rank, file), text in files.items()},
        input=block("/d"),
        output=answer("/d", [f"env READ={wanted}"] if wanted else []),
    )


def database(name, files, modalias, output):
    """A run of `query` over folders of the database."""
    placed = {f"root/{DATABASE[rank]}/{file}": text for (rank, file), text in files.items()}
    return Row(f"database: {name}", ["query", "-r", "root", modalias], placed, output=output)


ROWS = [
    rules(
        "of each name the file of the lowest rank, sorted by name",
        {
            (1, "70-b.rules"): "1",
            (1, "60-a.rules"): "2",
            (0, "80-c.txt"): "3",
            (0, "70-b.rules"): "4",
            (2, "70-b.rules"): "6",
            (1, "60.rules"): "7",
        },
        "2 7 4",
    ),
    rules(
        "names are sorted over all folders",
        {(0, "9.rules"): "d", (1, "10.rules"): "b", (2, "1.rules"): "a", (3, "2.rules"): "c"},
        "a b c d",
    ),
    rules(
        "names are sorted by bytes",
        {(0, "a.rules"): "3", (0, "B.rules"): "2", (0, "10.rules"): "1", (0, "\u00E4.rules"): "4"},
        "1 2 3 4",
    ),
    rules("/etc comes before the other folders", {(rank, "a.rules"): str(rank) for rank in (0, 1, 2, 3)}, "0"),
    rules("/run comes before /usr", {(rank, "a.rules"): str(rank) for rank in (1, 2, 3)}, "1"),
    rules("/usr/local/lib comes before /usr/lib", {(rank, "a.rules"): str(rank) for rank in (2, 3)}, "2"),
    rules(
        "files with another suffix are not read",
        {(0, "a.rules.old"): "1", (0, "b.hwdb"): "2", (0, "crules"): "3", (3, "RULES"): "4"},
        "",
    ),
    rules("a name may be only the suffix", {(3, ".rules"): "1"}, "1"),
    Row(
        "rules: an empty file hides a file of a higher rank",
        "verify -r root",
        {
            "root/etc/udev/rules.d/a.rules": "",
            "root/usr/lib/udev/rules.d/a.rules": "A\n",
            "root/usr/lib/udev/rules.d/b.rules": "",
        },
        output="2 files checked, 2 good, 0 bad\n",
    ),
    database(
        "the later name counts",
        {(1, "60-a.hwdb"): "m*\n A=1\n", (1, "70-b.hwdb"): "m*\n A=2\n", (1, "80-c.txt"): "m*\n A=3\n"},
        "mx",
        "A=2\n",
    ),
    database(
        "a file of a lower rank hides a file of the same name",
        {
            (1, "60-a.hwdb"): "m*\n A=1\n",
            (1, "70-b.hwdb"): "m*\n A=2\n",
            (0, "70-b.hwdb"): "z\n A=2\n",
            (1, "80-c.txt"): "m*\n A=3\n",
        },
        "mx",
        "A=1\n",
    ),
    database(
        "names are sorted by bytes over both folders",
        {(1, "70-b.hwdb"): "*\n A=1\n C=1\n", (0, "60.hwdb"): "*\n A=7\n B=7\n", (1, "60-a.hwdb"): "*\n A=2\n B=2\n D=2\n"},
        "x",
        "A=1\nB=7\nC=1\nD=2\n",
    ),
    database("without folders no file is read", {}, "x", ""),
    Row(
        "database: named files are read in the order given",
        "query mx 70-b.hwdb 60-a.hwdb 80-c.txt",
        {"70-b.hwdb": "m*\n A=2\n B=2\n", "60-a.hwdb": "m*\n A=1\n B=3\n C=1\n", "80-c.txt": "m*\n A=4\n"},
        output="A=4\nB=3\nC=1\n",
    ),
    Row(
        "rules: named files are read in the order given",
        "events -r none b.rules a.txt",
        {"b.rules": 'ENV{READ}+="1"\n', "a.txt": 'ENV{READ}+="2"\n'},
        input=block("/d"),
        output=answer("/d", ["env READ=1 2"]),
    ),
]
