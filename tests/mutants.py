#!/usr/bin/env python3
"""Tries the mutants of the named crates, or of all that have some: wrong bodies that the prover has to refuse, and that
the gate leaves to this script. It works in a clone of what is committed, which is deleted at the end, and begins with
what the crates' own checks have kept, so only what an edit changes is proved again.

Edits of different functions are tried in one check, in which each changed function has to be refused for its own body,
not for one that it calls. An edit that was not refused that way, and one that changes more than bodies, is tried alone,
as the gate tries those in must-fail/. Each edit is reported in a line, and the last line is `N refused, M not refused`;
an edit that could not be tried, or that is refused without a reason in its crate, counts as not refused. What became of a
crate's edits, over which commit and on which day, is written into tests/tried.txt.
usage: tests/mutants.py [CRATE..]    RT is the toolchain's command, rt by default"""

import datetime
import os
import pathlib
import re
import shutil
import subprocess
import sys
import tempfile

RT = os.environ.get("RT", "rt")

# The first line of a function, of an impl (of a type, or of a trait for one), and of a type.
FUNCTION = re.compile(r"( *)(?:pub(?:\([a-z]+\))? )?(?:const )?(?:unsafe )?fn (\w+)")
IMPL = re.compile(r"impl(?:<.*?>)? (?:(.+) for )?(\w+).* \{")
TYPE = re.compile(r"(?m)^(?:pub(?:\([a-z]+\))? )?(?:struct|enum) (\w+)")

# What a check says of a function that is refused for its own body. If only what it calls is refused, the check says
# `no proof: it calls ..`.
REFUSED = re.compile(r"fn (\S+): (?:not proved|no proof: expected answers)")

# What is said of a proof file that names something that the edit removes.
LOST_NAME = re.compile(r"has no field|is not in scope|has no `|was not admitted")

# What the toolchain says of an edit that it tries alone and refuses for something in the crate. If it names nothing there,
# the prover does not cover the changed code, or has no proof of what that calls, and no contract was tried.
REFUSED_ALONE = re.compile(r"refused, as it must be.*: (?:note: )?(?:\./)?(?:src|specs|proofs)/")


class Source:
    """The source of a crate: the texts of its files."""

    def __init__(self, folder):
        self.crate = folder.name
        self.texts = {str(path.relative_to(folder)): path.read_text() for path in (folder / "src").rglob("*.rt")}
        # the module that a type is declared in, by which its methods are named wherever they are
        self.home = {name: self.module(path) for path, text in self.texts.items() for name in TYPE.findall(text)}

    def module(self, path):
        parts = pathlib.PurePath(path).with_suffix("").parts[1:]
        return [self.crate, *(part for part in parts if part not in ("lib", "main", "mod"))]

    def split(self, path, text):
        """The functions of a file, as a check names them, and its text in pieces: what comes before the first body, that
        body, what comes before the next, and so on. The toolchain formats files, so an item's opening and closing lines
        have the same indent."""
        names, pieces = [], [""]
        module, owner, head, is_inside = self.module(path), [], None, False
        for line in text.splitlines(keepends=True):
            if is_inside and line == head[1] + "}\n":
                pieces.append("")
                head, is_inside = None, False
            pieces[-1] += line
            if is_inside:
                continue
            if impl := IMPL.match(line):
                trait = "".join(re.findall(r"[A-Z]\w+", impl[1] or ""))
                owner = [impl[2] + trait]
                module = self.module(path) if trait else self.home.get(impl[2], module)
            elif function := FUNCTION.match(line):
                head = function
                if not head[1]:
                    module, owner = self.module(path), []
            if line == "}\n" or line.endswith("{}\n"):
                # the end of a trait, or an empty body
                head = None
            elif head and (line == head[1] + "{\n" or " {" in line and line.startswith((head[0], head[1] + ")"))):
                names.append(Name(module, owner, head[2]))
                following = line.partition("{")[2]
                pieces[-1] = pieces[-1].removesuffix(following)
                pieces.append(following)
                is_inside = True
        return names, pieces


class Name:
    """How a check names a function, and how the names of its closures begin."""

    def __init__(self, module, owner, name):
        self.whole = "::".join([*module, *owner, name])
        self.closures = "::".join([*module, "fn", *owner, name, ""])

    def refusal(self, lines):
        """Why a check refuses the function for its own body, or None."""
        for line in lines:
            found = REFUSED.match(line)
            if found and (found[1] == self.whole or found[1].startswith(self.closures)):
                proofs = re.escape(f"proofs/{'/'.join(found[1].split('::')[1:])}/")
                reported = [it for it in lines if re.match(rf"(\./)?{proofs}\S+ error: ", it)]
                wrong = [it for it in reported if not LOST_NAME.search(it)]
                if reported and not wrong:
                    return f"only because a proof file names what it takes away: {reported[0]}"
                return (wrong or [line.removeprefix(f"fn {found[1]}: ")])[0]
        return None


class Mutant:
    """An edit of a crate: the texts that it makes, empty if it cannot be applied, and the bodies that it changes, by file
    and place, empty if it changes anything else."""

    def __init__(self, edit, source):
        self.edit, self.bodies, self.names = edit, {}, []
        texts = edited(edit, source.texts)
        for path in source.texts if texts else ():
            names, pieces = source.split(path, source.texts[path])
            _, others = source.split(path, texts[path])
            if pieces[::2] != others[::2]:
                self.bodies, self.names = {}, []
                break
            for at, (name, body, other) in enumerate(zip(names, pieces[1::2], others[1::2])):
                if body != other:
                    self.bodies[path, at] = other
                    self.names.append(name)


def edited(edit, texts):
    """The texts of a crate's source after an edit, or None if an old text of the edit does not occur there exactly once."""
    texts, path, old = dict(texts), "", ""
    for line in edit.read_text(encoding="utf-8").splitlines():
        if line.startswith("file: "):
            path = line.removeprefix("file: ").strip()
        elif line.startswith("old: "):
            old = line.removeprefix("old: ")
        elif line.startswith("new:"):
            if texts.get(path, "").count(old) != 1:
                return None
            texts[path] = texts[path].replace(old, line.removeprefix("new:").removeprefix(" "))
    return texts


def run(folder, *words):
    """How a command of the toolchain ends in a folder, and what it prints, in lines."""
    ended = subprocess.run(
        [RT, *words],
        cwd=folder,
        stdin=subprocess.DEVNULL,
        stdout=subprocess.PIPE,
        stderr=subprocess.STDOUT,
        encoding="utf-8",
        errors="replace",
        check=False,
    )
    return ended.returncode, ended.stdout.splitlines()


class Crate:
    """A crate of the clone, and how many of its mutants are refused and how many are not."""

    def __init__(self, folder):
        self.folder, self.source = folder, Source(folder)
        self.refused = self.others = 0

    def report(self, mutant, found, is_refused=False):
        print(f"{self.folder.name}/{mutant.edit.name}: {found[:240]}", flush=True)
        self.refused += is_refused
        self.others += not is_refused

    def write(self, bodies):
        """Writes the source with these bodies in place of its own."""
        for path, text in self.source.texts.items():
            _, pieces = self.source.split(path, text)
            for (changed, at), body in bodies.items():
                if changed == path:
                    pieces[2 * at + 1] = body
            (self.folder / path).write_text("".join(pieces), encoding="utf-8")

    def try_bodies(self, mutants):
        """Tries mutants that change bodies, as many in each check as are of different functions, and returns those that were
        not refused that way."""
        left = []
        while mutants:
            chosen, bodies = [], {}
            for mutant in mutants:
                if bodies.keys().isdisjoint(mutant.bodies):
                    chosen.append(mutant)
                    bodies.update(mutant.bodies)
            left += self.try_together(chosen)
            mutants = [it for it in mutants if it not in chosen]
        return left

    def try_together(self, mutants):
        self.write({place: body for mutant in mutants for place, body in mutant.bodies.items()})
        names = sorted({name.whole for mutant in mutants for name in mutant.names})
        _, lines = run(self.folder, "check", "--jobs", "1", *(word for name in names for word in ("--only", name)))
        self.write({})
        if not any(re.match(r"only=\d+ proved=\d+", line) for line in lines):
            # for example because one of them does not compile
            half = len(mutants) // 2
            return self.try_together(mutants[:half]) + self.try_together(mutants[half:]) if half else mutants
        left = []
        for mutant in mutants:
            why = next((why for name in mutant.names if (why := name.refusal(lines))), None)
            if why:
                self.report(mutant, f"refused: {why}", True)
            else:
                left.append(mutant)
        return left

    def try_alone(self, mutants):
        """Tries each of some mutants on the whole crate."""
        gate = self.folder / "must-fail"
        shutil.rmtree(gate, ignore_errors=True)
        gate.mkdir()
        for mutant in mutants:
            shutil.copy(mutant.edit, gate)
        _, lines = run(self.folder, "must-fail", self.folder.name)
        for mutant in mutants:
            label = f"must-fail {self.folder.name}/{mutant.edit.name}: "
            reported = [it.partition(label)[2] for it in lines if label in it]
            if not reported:
                print(*lines, sep="\n")
            found = (reported or ["NOT TRIED"])[0]
            self.report(mutant, found, REFUSED_ALONE.match(found) is not None)

    def try_all(self, edits):
        mutants = [Mutant(it, self.source) for it in edits]
        is_program = (self.folder / "src/main.rt").exists()
        status, lines = run(self.folder, "check" if is_program else "lib")
        if status:
            print(*lines, sep="\n")
            for mutant in mutants:
                self.report(mutant, "NOT TRIED: the crate is not proved")
            return
        left = self.try_bodies([it for it in mutants if it.bodies])
        left += [it for it in mutants if not it.bodies]
        if left:
            self.try_alone(left)


def record(top, commit, crate):
    """Writes into tests/tried.txt how many wrong bodies of a crate were refused and how many not, in place of what is there of it."""
    path = top / "tests/tried.txt"
    lines = [line for line in path.read_text(encoding="utf-8").splitlines() if line.split()[0] != crate.folder.name]
    lines.append(f"{crate.folder.name} {crate.refused} {crate.others} {commit} {datetime.date.today()}")
    path.write_text("".join(f"{line}\n" for line in sorted(lines)), encoding="utf-8")


def main(names):
    top = pathlib.Path(__file__).resolve().parent.parent
    with tempfile.TemporaryDirectory(prefix="mutants-") as work:
        clone = pathlib.Path(work) / "devdry"
        subprocess.run(["git", "clone", "-q", top, clone], check=True)
        commit = subprocess.run(["git", "rev-parse", "--short=8", "HEAD"], cwd=clone, capture_output=True, encoding="utf-8", check=True).stdout.strip()
        crates = re.findall(r"(?m)^(\w+).*:", (clone / "crates.txt").read_text(encoding="utf-8"))
        for name in names:
            if name not in crates:
                print(f"tests/mutants.py: there is no crate {name}", file=sys.stderr)
                return 2
        for name in crates:
            if (kept := top / "crates" / name / "out").is_dir():
                subprocess.run(["cp", "-al", kept, clone / "crates" / name / "out"], check=False)
        refused = others = 0
        for name in crates:
            edits = sorted((clone / "crates" / name).glob("mutants/*.edit"))
            if edits and (not names or name in names):
                crate = Crate(clone / "crates" / name)
                crate.try_all(edits)
                record(top, commit, crate)
                refused += crate.refused
                others += crate.others
        print(f"{refused} refused, {others} not refused")
        return 1 if others else 0


if __name__ == "__main__":
    sys.exit(main(sys.argv[1:]))
