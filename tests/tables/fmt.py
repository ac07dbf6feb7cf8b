"""`fmt`: commas and blanks of rules files, and what stays as it is."""
from tables.kinds.row import FOLDER, Begins, Row

LOOSE = 'KERNEL=="a" ,TAG+="b"\n'
MENDED = 'KERNEL=="a", TAG+="b"\n'
REQUIRED = "error: the following required arguments were not provided:\n  <FILE>..."


def mended(name, text, wanted):
    """A file, and what it becomes."""
    return Row(name, "fmt a.rules", {"a.rules": text}, output=wanted)


def stays(name, text):
    """A file that stays as it is."""
    return mended(name, text, text)


GAPS = [
    mended("no comma", 'KERNEL=="a" TAG+="b"\n', MENDED),
    mended("nothing between two tokens", 'KERNEL=="a"TAG+="b"\n', MENDED),
    mended("no blank after a comma", 'KERNEL=="a",TAG+="b"\n', MENDED),
    mended("a blank before a comma", 'KERNEL=="a" , TAG+="b"\n', MENDED),
    mended("a tab before a comma", 'KERNEL=="a"\t,\tTAG+="b"\n', MENDED),
    mended("two commas", 'KERNEL=="a",, TAG+="b"\n', MENDED),
    mended("a comma at the end", 'KERNEL=="a", TAG+="b",\n', MENDED),
    mended("a comma and blanks at the end", 'KERNEL=="a", TAG+="b" , \t\n', MENDED),
    mended("blanks at the end of a rule that is mended", 'KERNEL=="a",TAG+="b" \t\n', MENDED),
    mended("blanks at the start of a line", '\t KERNEL=="a",TAG+="b"\n', "\t " + MENDED),
    mended("a gap that is good keeps its blanks", 'KERNEL=="a",   TAG+="b",TAG+="c"\n', 'KERNEL=="a",   TAG+="b", TAG+="c"\n'),
    mended("blanks within tokens", 'KERNEL == "a",TAG += "b"\n', 'KERNEL == "a", TAG += "b"\n'),
    mended("commas in values and braces", 'ENV{a,b}=="c,d",ENV{e ,f}="g ,h"\n', 'ENV{a,b}=="c,d", ENV{e ,f}="g ,h"\n'),
    mended("quotes that are escaped", 'KERNEL=="a",ENV{B}=e"\\"x,y\\""\n', 'KERNEL=="a", ENV{B}=e"\\"x,y\\""\n'),
    mended("no newline at the end", 'KERNEL=="a",TAG+="b"', MENDED[:-1]),
    mended("a jump and a label", 'KERNEL=="a",GOTO="end"\nTAG+="b",TAG+="c"\nLABEL="end",TAG+="d"\n',
        'KERNEL=="a", GOTO="end"\nTAG+="b", TAG+="c"\nLABEL="end", TAG+="d"\n'),
    mended("operators that are read as = stay", 'KERNEL=="a",MODE+="0600"\n', 'KERNEL=="a", MODE+="0600"\n'),
]

CONTINUED = [
    mended("a comma before a backslash", 'KERNEL=="a",\\\n  TAG+="b"\n', 'KERNEL=="a", \\\n  TAG+="b"\n'),
    mended("no comma before a backslash", 'KERNEL=="a" \\\n  TAG+="b"\n', 'KERNEL=="a", \\\n  TAG+="b"\n'),
    mended("a backslash right behind a token", 'KERNEL=="a"\\\n\tTAG+="b"\n', 'KERNEL=="a", \\\n\tTAG+="b"\n'),
    mended("a comma at the start of a line", 'KERNEL=="a" \\\n  , TAG+="b"\n', 'KERNEL=="a", \\\n  TAG+="b"\n'),
    mended("a column of backslashes", 'KERNEL=="a",   \\\n  TAG+="b",TAG+="c"\n', 'KERNEL=="a",   \\\n  TAG+="b", TAG+="c"\n'),
    mended("a comment among the lines", 'KERNEL=="a",\\\n # b , c\n  TAG+="b"\n', 'KERNEL=="a", \\\n # b , c\n  TAG+="b"\n'),
    mended("lines with a backslash alone", 'KERNEL=="a"\\\n\\\n \\\nTAG+="b"\n', 'KERNEL=="a", \\\n\\\n \\\nTAG+="b"\n'),
    mended("a token of two lines", 'ENV{A}="b\\\nc",TAG+="d"\n', 'ENV{A}="b\\\nc", TAG+="d"\n'),
    mended("an empty line at the end of a rule", 'TAG+="a", \\\n\nTAG+="b",TAG+="c"\n', 'TAG+="a"\\\n\nTAG+="b", TAG+="c"\n'),
    mended("a comma alone in a line at the end", 'TAG+="a" \\\n,\n', 'TAG+="a"\\\n\n'),
    mended("a comma alone in a line without a newline", 'TAG+="a" \\\n,', 'TAG+="a"\\\n '),
]

STAYING = [
    stays("an empty file", ""),
    stays("comments and empty lines", "# a ,b\n\n \t\n  # c\n"),
    stays("a rule of which nothing is said", 'KERNEL=="a",  TAG+="b" \n'),
    stays("a rule that is open at the end", 'KERNEL=="a",TAG+="b" \\\n'),
    stays("a comma in front", ', KERNEL=="a",TAG+="b"\n'),
    stays("a line without tokens", 'TAG+="a",b\n'),
    stays("an unknown key", 'FOO=="a",TAG+="b"\n'),
    stays("a jump without its label", 'KERNEL=="a",GOTO="none"\n'),
    stays("a second label", 'LABEL="a",LABEL="b"\n'),
    stays("CR at the ends of lines", 'KERNEL=="a",TAG+="b"\r\n'),
    stays("a line that would become too long", 'TAG+="' + "x" * 16368 + '"TAG+="b"\n'),
    mended("a line with a fault beside others", LOOSE + 'FOO=="a",TAG+="b"\n' + LOOSE, MENDED + 'FOO=="a",TAG+="b"\n' + MENDED),
]

FILES = [
    Row("two files", "fmt b.rules a.rules", {"a.rules": LOOSE, "b.rules": "# b\n"}, output="# b\n" + MENDED),
    Row("a file of another name", "fmt a", {"a": LOOSE}, output=MENDED),
    Row("the standard input", "fmt -", input=LOOSE, output=MENDED),
    Row("files that would change", "fmt --check a.rules b.rules c.rules", {"a.rules": LOOSE, "b.rules": MENDED, "c.rules": LOOSE}, output="a.rules\nc.rules\n", status=1),
    Row("no file would change", "fmt --check a.rules", {"a.rules": MENDED}),
    Row("the standard input would change", "fmt --check --stdin-name 70-mine.rules -", input=LOOSE, output="70-mine.rules\n", status=1),
    Row("names are escaped", ["fmt", "--check", "--stdin-name", "a\nb", "-"], input=LOOSE, output="a\\x0Ab\n", status=1),
    Row("options of a file", "fmt --options ours a.rules", {"ours": "--check\n", "a.rules": LOOSE}, output="a.rules\n", status=1),
    Row("a file that is not there", "fmt none.rules", messages="devdry: cannot read none.rules\n", status=3),
    Row("a file and one that is not there", "fmt a.rules none.rules", {"a.rules": LOOSE}, messages="devdry: cannot read none.rules\n", status=3),
    Row("a folder", "fmt mnt", {"mnt": FOLDER}, messages="devdry: cannot read mnt\n", status=3),
    Row("no file", "fmt", messages=Begins(REQUIRED.encode()), status=2),
    Row("no file with --check", "fmt --check", messages=Begins(REQUIRED.encode()), status=2),
    Row("a root", "fmt -r mnt a.rules", {"a.rules": LOOSE}, messages=Begins(b"error: unexpected argument '-r' found"), status=2),
    Row("a name of the input without it", "fmt --stdin-name a.rules b.rules", {"b.rules": LOOSE}, messages=Begins(b"error: the argument '--stdin-name <PATH>' needs '-'"), status=2),
]

ROWS = GAPS + CONTINUED + STAYING + FILES
