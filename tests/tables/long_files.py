"""Files of more than 2^24 bytes, which are read to their last line."""
from tables.kinds.index_bytes import BYTE, ROOT, index, node
from tables.kinds.row import Row

# comments of 1,000 bytes each
COUNT = 17_000
COMMENTS = ("#" + "-" * 998 + "\n") * COUNT

# an index of a pattern `m` with ` K=V`, after as many bytes that belong to no value
BEGINNING = bytes(COUNT * 1_000)
INDEX = index(
    1,
    [node(ROOT, children=1), node(BYTE, b"m", values=1)],
    [(len(BEGINNING), 1, len(BEGINNING) + 1, 1, 0)],
    BEGINNING + b"KV",
)

ROWS = [
    Row(
        "the last line of a long rules file is checked",
        "verify r.rules",
        {"r.rules": COMMENTS + 'FOO="x"\n'},
        output="1 files checked, 0 good, 1 bad\n",
        messages=f"r.rules:{COUNT + 1}: V2 unknown key: FOO\n",
        status=1,
    ),
    Row(
        "the last record of a long database file is found",
        "query --sources m t.hwdb",
        {"t.hwdb": COMMENTS + "m\n A=1\n"},
        output=f"t.hwdb:{COUNT + 2}: A=1\n",
    ),
    Row("the last bytes of a long index are a value", "query --index i m", {"i": INDEX}, output="K=V\n"),
]
