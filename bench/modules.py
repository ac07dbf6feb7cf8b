#!/usr/bin/env python3
"""What each crate costs the prover, from a log of `make proofs`: its functions, the modules that were checked of it, the processor
seconds, and the milliseconds a module, which a busy machine blurs less than minutes by the clock do.

A function is 20 to 50 modules, whatever it does; what differs is the price of a module. A crate of which an earlier run had kept more
than a few modules has their number in brackets: its seconds are not those from nothing. One that was kept whole is left out.

usage: bench/modules.py [LOG]    build/proofs.log by default
"""
import re
import sys
from pathlib import Path

LOG = Path(__file__).resolve().parent.parent / "build/proofs.log"


def rows(text):
    """For each crate that was proved in a run: its name, functions, modules, those that had been kept, and seconds."""
    for name, seconds, printed in re.findall(r"^== (\w+), ([0-9.]+) seconds of processor time\n(.*?)(?=^== |\Z)", text, re.M | re.S):
        modules = re.search(rf"^crate {name}: modules loaded=(\d+) checked=(\d+)$", printed, re.M)
        proved = re.search(r"^logic=proved functions=(\d+)", printed, re.M)
        if modules and proved and int(modules[2]):
            yield name, int(proved[1]), int(modules[2]), int(modules[1]), float(seconds)


def main(log):
    found = sorted(rows(log.read_text(encoding="utf-8")), key=lambda row: -row[4] / row[2])
    print(f"{'crate':20} functions  modules  seconds  ms a module")
    for name, functions, modules, kept, seconds in found:
        # (some 5 in 100 are loaded even from nothing)
        beside = f" ({kept} kept)" if kept * 10 > modules else ""
        print(f"{name:20} {functions:9} {modules:8} {seconds:8.0f} {1000 * seconds / modules:8.0f}{beside}")
    functions, modules, seconds = (sum(row[at] for row in found) for at in (1, 2, 4))
    if modules:
        print(f"{'all':20} {functions:9} {modules:8} {seconds:8.0f} {1000 * seconds / modules:8.0f}")


if __name__ == "__main__":
    main(Path(sys.argv[1]) if sys.argv[1:] else LOG)
