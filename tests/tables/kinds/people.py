"""What people are told with `--format=human` below a line that is no message: what is wrong, and what to do about it.

What is wanted follows the reference, docs/behaviour.md.
"""


def told(wrong, advice):
    """The two lines."""
    return f"  {wrong}\n  = {advice}\n"


# about a faulty block, by the text of the fault
BLOCKS = {
    "no action": told("The first line of a block is C: and the action, and this one is not.",
                      "Begin the block with a line such as C: add, and end the block before it with an empty line."),
    "no device": told("No P: above this line says which device it is about, or the block ends without one.",
                      "Put P: and the path of the device below C:, above all that is about the device."),
    "unknown line": told("The line is not a letter of a block, a colon, one space and a text.",
                         "Write one of the letters in devdry-events(1), and no comment; devdry-capture prints whole blocks."),
    "given twice": told("A line above gives this already, and it can be given only once.",
                        "Remove one of the two lines, or put an empty line between two blocks."),
    "path": told("The path does not begin with a slash, or is not that of a parent of the device above.",
                 "Write paths as below /sys, such as P: /devices/virtual/mem/null, each parent below its child."),
    "number": told("The device number is not MAJOR:MINOR, or the answer does not begin with an exit status.",
                   "Write a number such as D: 8:0, or an answer such as R: 0 TEXT, and no carriage return after it."),
    "pair": told("A part of the line is missing, or the line that it belongs to.",
                 "Write NAME=TEXT after A:, E: and K:, a text after the other letters, and R: right below its Q:."),
    "nul byte": told("The line has a NUL byte, which no text of a device has.",
                     "Remove the byte: of an attribute that has one, udev sees what comes before it."),
    "too long": told("In this line the block gets longer than 65,536 bytes.",
                     "Leave out attributes that no rule asks for, or put an empty line between two blocks."),
    "too deep": told("The line begins the 65th device, and a block has at most 64.",
                     "Leave out the devices at the end of the block, which are the farthest parents."),
}

# about what can't be read, by the reason; for a link to nothing see `link_to`
FILES = {
    "no such file": told("There is no such file.", "Check the path, letter by letter and from its first folder on."),
    "permission denied": told("Permission is denied by the mode of the file, or of a folder on the way to it.",
                              "Run devdry as a user who may read it, or change the mode."),
    "not a folder": told("It is not a folder, and files are read from a folder here.", "Remove it, or make a folder in its place."),
    "not a regular file": told("It is not a regular file, but a folder, a pipe, a socket or a device, or it would be below a file.",
                               "Give the path of a file; with --all a folder can be named, whose files are read."),
    "a name is not UTF-8": told("It is a folder in which a name is not UTF-8.", "Give the file with this name another one."),
    "input/output error": told("The system gives an input/output error, as for links that lead in a circle.",
                               "Look at the path with ls -lL, and at what the kernel says about its disk."),
}


def link_to(target):
    """The same about a link to nothing, by its target, escaped."""
    return told(f"It is a link, and there is nothing at {target}", "Remove the link, or make what it leads to; a link to /dev/null masks a file.")
