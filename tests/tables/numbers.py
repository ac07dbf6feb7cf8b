"""Numbers as rules and blocks have them: leading zeros, the greatest that counts, and what is not a number."""
from tables.kinds.answered import answer, answered, block
from tables.kinds.row import Row


def refused(line, *lines):
    """A block of these lines after its path, one of which has a number that is not one."""
    return Row(
        f"invalid number: {lines[-1]}",
        "events -r none r.rules",
        {"r.rules": ""},
        input=block("/x") + block("/d", *lines),
        output=answer("/x", []),
        messages=f"block 2, line {line}: number\n",
        status=1,
    )


SUCCEEDS = 'PROGRAM=="p", TAG="well"'

ROWS = [
    answered("status 255 fails", [SUCCEEDS], (["Q: p", "R: 255"], [])),
    answered("status 000 is 0", [SUCCEEDS], (["Q: p", "R: 000"], ["tag well"])),
    answered("status 007 is not success", [SUCCEEDS], (["Q: p", "R: 007"], [])),
    refused(4, "Q: p", "R: 256"),
    refused(4, "Q: p", "R: 0000"),
    refused(4, "Q: p", "R: 1x"),
    refused(4, "Q: p", "R: -1"),
    refused(4, "Q: p", "R: "),
    answered(
        "the numbers of a node are kept as written",
        [],
        (["D: 4294967295:0000000007"], ["env MAJOR=4294967295", "env MINOR=0000000007"]),
    ),
    refused(3, "D: 4294967296:0"),
    refused(3, "D: 0:00000000001"),
    refused(3, "D: 8"),
    refused(3, "D: 8:"),
    refused(3, "D: 8:1x"),
]
