"""`--with FILE`: a file that is read among those of the folders, by its name, as if it were in the first of them."""
from tables.kinds.answered import answer, block
from tables.kinds.folders import ETC, ETC_HWDB, LIB, LIB_HWDB, RUN, checked, unread
from tables.kinds.row import FOLDER, PIPE, Link, Row

BLOCK = block("/d")


def says(value, name="A"):
    """A rule that sets a property."""
    return f'ENV{{{name}}}="{value}"\n'


def answered(name, words, files, *lines):
    """A run of `events` over mnt and added files, and the lines of its answer to one event."""
    return Row(name, f"events -r mnt {words}", files, input=BLOCK, output=answer("/d", lines))


EVENTS = [
    answered("an added file is read where its name stands among those of the folders", "--with drafts/50-b.rules",
             {f"{LIB}/40-a.rules": says("1"), "drafts/50-b.rules": says("$env{A}", "B"), f"{ETC}/60-c.rules": says("2")}, "env A=2", "env B=1"),
    answered("an added file hides the files of its name", "--with drafts/50-b.rules",
             {f"{ETC}/50-b.rules": says("etc"), f"{RUN}/50-b.rules": says("run"), "drafts/50-b.rules": says("mine", "B")}, "env B=mine"),
    answered("an added file without a folder", "--with 50-b.rules", {"50-b.rules": says("mine"), f"{LIB}/50-b.rules": says("lib")}, "env A=mine"),
    answered("an added file is named by what follows the last slash", "--with=./x//y/../y/50-b.rules",
             {"x/y/50-b.rules": says("mine"), f"{LIB}/50-b.rules": says("lib")}, "env A=mine"),
    answered("an added file is not sought inside the root", "--with etc/udev/rules.d/50-b.rules",
             {"etc/udev/rules.d/50-b.rules": says("mine"), f"{ETC}/50-b.rules": says("etc")}, "env A=mine"),
    answered("an empty added file masks those of its name", "--with drafts/50-b.rules", {"drafts/50-b.rules": "", f"{LIB}/50-b.rules": says("lib")}),
    answered("/dev/null by a symlink as an added file masks those of its name", "--with drafts/50-b.rules",
             {"drafts/50-b.rules": Link("/dev/null"), f"{LIB}/50-b.rules": says("lib")}),
    answered("two added files stand by their names", "--with z/20.rules --with a/30.rules",
             {"z/20.rules": says("20"), "a/30.rules": says("30")}, "env A=30"),
    answered("of two added files of one name the first is read", "--with z/a.rules --with a/a.rules",
             {"z/a.rules": says("z"), "a/a.rules": says("a")}, "env A=z"),
    answered("an added file of the database", "--with drafts/20-b.hwdb",
             {"drafts/20-b.hwdb": "m\n A=2\n", f"{ETC_HWDB}/20-b.hwdb": "m\n A=1\n B=1\n", f"{LIB_HWDB}/10-a.hwdb": "m\n A=0\n C=0\n",
              f"{LIB}/a.rules": 'IMPORT{builtin}="hwdb m"\n'}, "env A=2", "env C=0"),
    answered("added rules and a database for them", "--with a.hwdb --with a.rules",
             {"a.hwdb": "m\n A=2\n", "a.rules": 'IMPORT{builtin}="hwdb m"\n'}, "env A=2"),
    answered("a file of rules whose folder ends as a database does", "--with a.hwdb/a.rules", {"a.hwdb/a.rules": says("1")}, "env A=1"),
    answered("an added file is readable with --all, too", "--all --with drafts/50-b.rules",
             {f"{LIB}/50-b.rules": says("lib"), "drafts/50-b.rules": says("mine", "B")}, "env B=mine"),
]

FAULTY = "A\n"


def faulty(name):
    """What is said about a file of that rule."""
    return f"{name}:1: V1 bad syntax: A\n"


VERIFY = [
    Row("what is said about an added file has its name", "verify -r mnt --with drafts/50-b.rules",
        {"drafts/50-b.rules": FAULTY, f"{LIB}/40-a.rules": FAULTY, f"{LIB}/50-b.rules": "", f"{LIB}/60-c.rules": ""},
        output=checked(1, 2), messages=faulty("40-a.rules") + faulty("50-b.rules"), status=1),
    Row("a path in a message is that in the first folder", "verify -r mnt --format gcc --with drafts/50-b.rules", {"drafts/50-b.rules": FAULTY},
        output=checked(0, 1), messages=f"{ETC}/50-b.rules:1:1: error: bad syntax: A [V1]\n", status=1),
    Row("an added file that does not exist", "verify -r mnt --with drafts/none.rules", {f"{LIB}/a.rules": FAULTY},
        messages="devdry: cannot read drafts/none.rules\n", status=3),
    Row("added files are read before the folders", "verify -r mnt --with none.rules", {ETC: ""}, messages="devdry: cannot read none.rules\n", status=3),
    Row("the first added file that can't be read is told", "verify -r mnt --with a.rules --with b.rules --with c.rules", {"a.rules": ""},
        messages="devdry: cannot read b.rules\n", status=3),
    Row("with --all the run goes on", "verify --all -r mnt --with drafts/none.rules --with b.rules", {f"{LIB}/a.rules": FAULTY, "b.rules": ""},
        output=checked(1, 1), messages=unread("drafts/none.rules", "no such file") + faulty("a.rules"), status=3),
    Row("with --all an added file that can't be read hides none", "verify --all -r mnt --with drafts/a.rules",
        {"drafts/a.rules": Link("none"), f"{LIB}/a.rules": FAULTY},
        output=checked(0, 1), messages=unread("drafts/a.rules", "link to nothing: none") + faulty("a.rules"), status=3),
    Row("with --all a folder is no added file", "verify --all -r mnt --with a.rules", {"a.rules": FOLDER, f"{LIB}/a.rules": ""},
        output=checked(1), messages=unread("a.rules", "not a regular file"), status=3),
    Row("with --all a pipe is no added file", "verify --all -r mnt --with a.rules", {"a.rules": PIPE, f"{LIB}/a.rules": ""},
        output=checked(1), messages=unread("a.rules", "not a regular file"), status=3),
    Row("with --all an added file is enough", "verify --all -r mnt --with a.rules", {"a.rules": "", "mnt": FOLDER}, output=checked(1)),
    Row("with --all a root that does not exist is told beside an added file", "verify --all -r mnt --with a.rules", {"a.rules": ""},
        output=checked(1), messages="devdry: mnt: absent\n", status=1),
    Row("a strict verify makes every check of an added file", "verify --strict -r mnt --with a.rules", {"a.rules": 'KERNEL=="a",TAG+="t"\n', "mnt": FOLDER},
        output=checked(0, 1), messages="a.rules:1: S2 blank after a comma expected: TAG\n", status=1),
]

FILES = [
    Row("files tells which files an added one hides", "files -r mnt --with drafts/60-a.rules --with b.hwdb",
        {"drafts/60-a.rules": says("1"), f"{ETC}/60-a.rules": "", f"{LIB}/50-b.rules": says("1"), "b.hwdb": "", f"{LIB_HWDB}/b.hwdb": "m\n A=1\n"},
        output=f"{LIB}/50-b.rules: used\ndrafts/60-a.rules: used\n{ETC}/60-a.rules: hidden by drafts/60-a.rules\n"
               f"b.hwdb: masked\n{LIB_HWDB}/b.hwdb: hidden by b.hwdb\n"),
    Row("files tells that an added file can't be read", "files -r mnt --with 60-a.rules", {f"{ETC}/60-a.rules": says("1")},
        output=f"60-a.rules: passed over: no such file\n{ETC}/60-a.rules: used\n", messages=unread("60-a.rules", "no such file"), status=3),
]

COMPARE = [
    Row("a file is added to the files of NEW alone", "compare --with drafts/50-b.rules mnt mnt",
        {f"{LIB}/50-b.rules": says("1"), "drafts/50-b.rules": says("2")}, input=BLOCK, output="event add /d\n-env A=1\n+env A=2\n\n", status=1),
    Row("an added file as it is installed changes nothing", "compare --with drafts/50-b.rules mnt mnt",
        {f"{LIB}/50-b.rules": says("1"), "drafts/50-b.rules": says("1")}, input=BLOCK),
    Row("a file of the database is added to those of NEW", "compare --with a.hwdb mnt mnt",
        {f"{LIB}/a.rules": 'IMPORT{builtin}="hwdb m"\n', "a.hwdb": "m\n A=1\n"}, input=BLOCK, output="event add /d\n+env A=1\n\n", status=1),
    Row("a new root that does not exist is told beside an added file", "compare --with a.rules old new",
        {"old/usr/lib/udev/rules.d/a.rules": says("1"), "a.rules": says("1")}, input=BLOCK, messages="devdry: new: absent\n", status=1),
    Row("an added file that does not exist ends compare", "compare --with none.rules mnt mnt", {f"{LIB}/a.rules": says("1")}, input=BLOCK,
        messages="devdry: cannot read none.rules\n", status=3),
    Row("an added file that does not exist is told once with --all", "compare --all --with none.rules mnt mnt", {f"{LIB}/a.rules": says("1")}, input=BLOCK,
        messages=unread("none.rules", "no such file"), status=3),
]

ROWS = EVENTS + VERIFY + FILES + COMPARE
