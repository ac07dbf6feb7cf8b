"""`events --udev`: IMPORT{db}, by what a block says that udev had stored about the event device, and `B:` lines by the manual."""
from tables.kinds.row import Row
from tables.kinds.udev_blocks import THING, answer_lines
from tables.kinds.udev_events import answered_as_udev
from tables.kinds.why import of, why


def storing(*properties, action="add", above=""):
    """A device and what udev had stored about it."""
    lines = "".join(f"B: {text}\n" for text in properties)
    return THING.replace("C: add\n", f"C: {action}\n").replace("E: ID_SOME=1\n", "E: ID_SOME=1\n" + lines).replace("V: hub\n", "V: hub\n" + above)


BOTH = 'IMPORT{db}=="ID_A", ENV{YES}="1"\nIMPORT{db}!="ID_A", ENV{NO}="1"\n'

CASES = [
    ('a stored property', BOTH, storing('ID_A=a b'), ['env ID_A=a b', 'env YES=1']),
    ('another one', BOTH, storing('ID_B=1'), ['env NO=1']),
    ('with != the property is set, too', 'IMPORT{db}!="ID_A", ENV{A}="1"\nENV{B}="$env{ID_A}"\n', storing('ID_A=7'), ['env B=7', 'env ID_A=7']),
    ('it is set again', 'ENV{ID_A}="old"\nIMPORT{db}="ID_A"\n', storing('ID_A=new'), ['env ID_A=new']),
    ('a property of the event itself is none', 'IMPORT{db}=="ID_SOME", ENV{A}="1"\n', storing('ID_A=1'), []),
    ('what a rule has set is none', 'ENV{ID_C}="1"\nIMPORT{db}=="ID_C", ENV{A}="1"\n', storing('ID_A=1'), ['env ID_C=1']),
    ('only with the same letters', 'IMPORT{db}=="id_a", ENV{A}="1"\nIMPORT{db}=="ID_*", ENV{B}="1"\nIMPORT{db}=="ID_", ENV{C}="1"\n', storing('ID_A=1'), []),
    ('nothing is put into a name', 'IMPORT{db}=="$kernel", ENV{A}="1"\nENV{B}="1"\n', storing('thing=1'), ['env B=1']),
    ('an empty value is not stored', BOTH, storing('ID_A='), ['env NO=1']),
    ('a value with =', BOTH, storing('ID_A=b=c'), ['env ID_A=b=c', 'env YES=1']),
    ('stored properties are not those of the device', 'ENV{ID_A}=="1", ENV{A}="1"\nENV{B}="$env{ID_A}|"\n', storing('ID_A=1'), ['env B=|']),
    ('on remove nothing is looked up', BOTH, storing('ID_A=1', action="remove"), ['env NO=1']),
    ('on remove without stored properties', BOTH, storing(action="remove"), ['env NO=1']),
    ('on change', BOTH, storing('ID_A=1', action="change"), ['env ID_A=1', 'env YES=1']),
    ('?* asks for the empty name', 'IMPORT{db}=="?*", ENV{A}="1"\nIMPORT{db}!="?*", ENV{B}="1"\n', storing('ID_A=1'), ['env A=1']),
    ('what is stored about a parent does not count', BOTH, storing(above="B: ID_A=1\n"),
     ['env NO=1', 'note r.rules:1: import not run: db', 'note r.rules:2: import not run: db']),
    ('without stored properties', BOTH, storing(), ['env NO=1', 'note r.rules:1: import not run: db', 'note r.rules:2: import not run: db']),
    ('IMPORT{parent} takes none', 'IMPORT{parent}="ID_A", ENV{X}="1"\n', storing(above="B: ID_A=1\n"), ['env X=1']),
]


def by_the_manual(name, rules, block, *lines):
    """The same rules and block without --udev."""
    return Row(name, "events -r none r.rules", {"r.rules": rules}, block, b"".join(line + b"\n" for line in answer_lines(block, list(lines))) + b"\n")


MANUAL = [
    by_the_manual("by the manual nothing stored is looked up", BOTH, storing('ID_A=1'), 'env NO=1', 'note r.rules:1: import not run: db',
                  'note r.rules:2: import not run: db'),
]

WHY = [
    why("IMPORT{db} of what is stored, and of what is not",
        ['IMPORT{db}=="A", IMPORT{db}=="A", IMPORT{db}!="B", TAG+="t"', 'IMPORT{db}=="B"'], ["B: A=1 2", "B: C=1"], ["tag t", "env A=1 2"],
        of(1, 'IMPORT{db}=="A": holds, sets A=1 2', 'IMPORT{db}=="A": holds, sets nothing', 'IMPORT{db}!="B": holds, sets nothing', "reached its end: tag t added"),
        of(2, 'IMPORT{db}=="B": fails, sets nothing', "stops there"),
        udev=True),
    why("IMPORT{db} where the block does not say what is stored", ['IMPORT{db}!="A"'], [], ["note r.rules:1: import not run: db"],
        of(1, 'IMPORT{db}!="A": holds, not run', "reached its end"), udev=True),
    why("IMPORT{db} by the manual", ['IMPORT{db}!="A"'], ["B: A=1"], ["note r.rules:1: import not run: db"],
        of(1, 'IMPORT{db}!="A": holds, not run', "reached its end")),
]

ROWS = answered_as_udev(CASES) + MANUAL + WHY
