"""Rows of `verify` over one rules file."""
from tables.kinds.row import Row, as_bytes


def verified(name, *lines, ends=b"\n", words="verify"):
    """A run over a file `r.rules` of these lines, each followed by what is said about it: `(line, message..)`, or the line alone
    if nothing is. A message is what follows `r.rules:N: `. `words` come before the file."""
    text = b""
    messages = b""
    for number, line in enumerate(lines, 1):
        written, *said = line if isinstance(line, tuple) else (line,)
        text += as_bytes(written) + b"\n"
        messages += b"".join(b"r.rules:%d: %s\n" % (number, as_bytes(message)) for message in said)
    good = 0 if messages else 1
    return Row(
        name,
        f"{words} r.rules",
        {"r.rules": text[:-1] + ends},
        output=f"1 files checked, {good} good, {1 - good} bad\n",
        messages=messages,
        status=1 - good,
    )
