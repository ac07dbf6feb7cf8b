"""What is said, in full, if an option is used otherwise than it is meant: for each option of each command."""
from tables.kinds.row import Row

MORE = "\nFor more information, try '--help'.\n"

# of each command its arguments, its flags, and its options with the value that each takes
COMMANDS = {
    "verify": ("[FILE]...", ["--strict", "--all", "--no-summary", "--no-style", "--lint", "--links", "--udev"],
               {"--options": "<FILE>", "--root": "<DIR>", "--with": "<FILE>", "--format": "<FORMAT>", "--color": "<WHEN>", "--ignore": "<CODES>",
                "--users": "<FILE>", "--groups": "<FILE>", "--stdin-name": "<PATH>"}),
    "query": ("<MODALIAS> [FILE]...", ["--all", "--sources"],
              {"--options": "<FILE>", "--root": "<DIR>", "--index": "<FILE>", "--stdin-name": "<PATH>"}),
    "update": ("[FILE]...", ["--strict", "--all", "--lint"],
               {"--options": "<FILE>", "--root": "<DIR>", "--format": "<FORMAT>", "--color": "<WHEN>", "--ignore": "<CODES>", "--stdin-name": "<PATH>"}),
    "events": ("[FILE]...", ["--all", "--sources", "--unused", "--questions", "--udev"],
               {"--options": "<FILE>", "--root": "<DIR>", "--with": "<FILE>", "--format": "<FORMAT>", "--why": "<FILE[:LINE]>", "--index": "<FILE>"}),
    "files": ("", [], {"--options": "<FILE>", "--root": "<DIR>", "--with": "<FILE>"}),
    "compare": ("<OLD> <NEW>", ["--all", "--sources", "--udev", "--rules"],
                {"--options": "<FILE>", "--with": "<FILE>", "--format": "<FORMAT>", "--index": "<FILE>"}),
    "fmt": ("<FILE>...", ["--check"], {"--options": "<FILE>", "--stdin-name": "<PATH>"}),
    "explain": ("<CODE>", [], {}),
}
# the letter that an option may be written as
LETTERS = {"--root": "-r", "--strict": "-s"}
# options that may be used more than once
MANY = {"--why", "--ignore", "--with"}


def usage(command, following):
    """The line on how a command is used."""
    return f"\nUsage: devdry {command} {following}".rstrip() + "\n"


def without_value(command, option, value):
    """The rows of an option that lacks its value, by its name and by its letter."""
    for name in filter(None, (option, LETTERS.get(option))):
        yield f"{command} {name}", f"error: a value is required for '{option} {value}' but none was supplied\n{MORE}"


def with_value(command, arguments, flag):
    """The row of a flag that is given a value."""
    yield (f"{command} {flag}=x", f"error: unexpected value 'x' for '{flag}' found; no more were expected\n"
           + usage(command, f"{flag} {arguments}") + MORE)


def twice(command, arguments, option, value=""):
    """The rows of an option that is used twice, by its name and by its letter."""
    given = f"{option} {value}".strip()
    for name in filter(None, (option, LETTERS.get(option))):
        words = f"{name} x" if value else name
        yield (f"{command} {words} {words}", f"error: the argument '{given}' cannot be used multiple times\n"
               + usage(command, f"[OPTIONS] {arguments}") + MORE)


def unexpected(command, arguments, has_options):
    """The row of a letter that is no option; how to pass it as an argument is told where there may be one."""
    tip = "\n  tip: to pass '-x' as a value, use '-- -x'\n" if arguments else ""
    yield (f"{command} -x", f"error: unexpected argument '-x' found\n{tip}" + usage(command, f"[OPTIONS] {arguments}" if has_options else arguments) + MORE)


def without_arguments(command, arguments):
    """The row of a command that lacks the arguments that it needs, if it needs any."""
    needed = [argument for argument in arguments.split() if argument.startswith("<")]
    if needed:
        listed = "".join(f"  {argument}\n" for argument in needed)
        # (clap names the options here only if there may be further arguments)
        options = "[OPTIONS] " if "[" in arguments else ""
        yield (command, f"error: the following required arguments were not provided:\n{listed}" + usage(command, options + arguments) + MORE)


def misused():
    """Words, and what is said about them."""
    for command, (arguments, flags, options) in COMMANDS.items():
        for option, value in options.items():
            yield from without_value(command, option, value)
            if option not in MANY:
                yield from twice(command, arguments, option, value)
        for flag in flags:
            # (which usage is shown for `query --sources=x` is left to the library, since it sees no modalias)
            if command != "query":
                yield from with_value(command, arguments, flag)
            yield from twice(command, arguments, flag)
        yield from unexpected(command, arguments, bool(flags or options))
        yield from without_arguments(command, arguments)


ROWS = [Row(words, words, messages=text, status=2) for words, text in misused()]
