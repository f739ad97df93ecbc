"""Which declaration rests on which, and the table of docs/PINS.md."""
import functools
import re

from rattle import rattle_files
from sources import ROOT, antt_files

from terms import definition

ROW = re.compile(r"\| `(\w+)/(proofs/\S+)\.([^`\s.]+)` \| edit `(\w+)/(\w+)` \| \S.* \|")


def key(module, declaration):
    return module.where.removesuffix(".antt") + "." + declaration.name


@functools.cache
def functions(crate):
    return {one.name for file in rattle_files() if file.crate == crate for one in file.functions}


def function_proof(module):
    """Whether a file is of a function's proof: `proofs/FUNCTION/`, or below a module's folder."""
    return module.path.name in ("Answers.antt", "Invariants.antt", "Proof.antt") and module.path.parent.name in functions(module.crate)


def asked_for(module, declaration):
    """Whether the check asks for a declaration of a function's proof: a public answer to the goal of its name, or the proof written as a whole."""
    answer = re.fullmatch(rf"(?:\S+\.)?{re.escape(declaration.name)}", declaration.type)
    return "pub" in declaration.marks and (answer is not None or module.path.name == "Proof.antt")


def citations(modules):
    """What each declaration cites, by keys."""
    found = {}
    for module in modules:
        for one in module.declarations:
            cited = (definition(path[:length], module) for path in one.cited for length in range(1, len(path) + 1))
            found[key(module, one)] = {key(known.module, known.declaration) for known in cited if known}
    return found


def held(pinned):
    """What the functions' proofs and the pinned theorems rest on."""
    modules = antt_files()
    cited = citations(modules)
    # What a function's proof has besides is held only by what the check asks for, and by what `tactic(auto, using(..))` hands it.
    ends = {key(module, one) for module in modules if function_proof(module) for one in module.declarations if asked_for(module, one)}
    ends |= {f"{'/'.join(path[:-1])}.{path[-1]}" for file in rattle_files() for path in file.using}
    reached, waiting = set(), list(ends | (pinned & cited.keys()))
    while waiting:
        at = waiting.pop()
        if at not in reached:
            reached.add(at)
            waiting += cited.get(at, ())
    return reached


def table():
    """The rows of the table, and what is wrong with its lines."""
    rows, faults = [], []
    for number, line in enumerate((ROOT / "docs/PINS.md").read_text().splitlines(), 1):
        if line.startswith("| `"):
            found = ROW.fullmatch(line)
            rows += [found.groups()] if found else []
            faults += [] if found else [f"line {number} is no row"]
    names = [row[:3] for row in rows]
    faults += [f"two rows of {'/'.join(row[:2])}.{row[2]}" for row in sorted({row for row in names if names.count(row) > 1})]
    return rows, faults


def pinned_by(rows):
    """The keys of the theorems in rows of the table."""
    return {f"{crate}/{file}.{name}" for crate, file, name, _, _ in rows}
