"""Functions, structs and type names of Rattle sources, wherever they stand in a file."""
import functools
import pathlib
import re
from dataclasses import dataclass

from sources import CRATES, InCrate, imports_in, rattle_code, split_outside

FUNCTION = re.compile(r'(?<![\w#])(pub\b(?:\s*\([^()]*\))?\s+)?(?:(?:const|unsafe|async|extern(?:\s*"[^"]*")?)\s+)*fn\s+(\w+)\s*')
ATTRIBUTES = re.compile(r"(?:#\s*\[[^\[\]]*\]\s*)+$")
CLAUSE = re.compile(r"\s*(requires|ensures)\b\s*\*?\s*\w*\s*(?=\{)")
TACTIC = re.compile(r"#\s*!?\s*\[\s*tactic\s*\(")
STRUCT = re.compile(r"\bstruct\s+(\w+)[^{(;]*(?=[{(;])")
CLOSING = {"(": ")", "{": "}", "[": "]", "<": ">"}


def balanced(code, start):
    """The place after the bracket that closes the one at `start`."""
    opening, depth = code[start], 0
    for at in range(start, len(code)):
        arrow = opening == "<" and code[at - 1 : at + 1] == "->"
        depth += (code[at] == opening) - (code[at] == CLOSING[opening] and not arrow)
        if depth == 0:
            return at + 1
    return len(code)


@dataclass
class Function:
    """A function's head: its parameters and result as written, and its clauses, `requires` or `ensures` with the text in braces, or of no kind."""

    path: pathlib.Path
    name: str
    public: bool
    exported: bool
    parameters: list
    result: str
    clauses: list


@dataclass(eq=False)
class Source(InCrate):
    path: pathlib.Path
    code: str
    imports: list
    functions: list
    # the fields of each struct, the enums, and what each other name of a type stands for
    structs: dict
    enums: set
    names: dict
    # the paths that a `tactic(..)` hands to proofs, `using` and `unfolding`, from the crate on
    using: list
    unfolding: list
    # a file of Rattle has no antt modules below it
    children: tuple = ()


def parameters(text, own):
    """Names and types; `self`, lent or not, is of the `impl`'s type."""
    pairs = []
    for part in split_outside(text, ","):
        name, colon, kind = part.partition(":")
        words = re.findall(r"'?\w+|&", name)
        if words and words[-1] == "self":
            pairs.append(("self", kind.strip() or " ".join(words[:-1] + [own])))
        elif colon:
            pairs.append((words[-1] if words else name.strip(), kind.strip()))
    return pairs


def clauses(code, at):
    """The clauses that stand from a place on, up to the body; whatever else stands there is one of no kind."""
    found = []
    while clause := CLAUSE.match(code, at):
        at = balanced(code, clause.end())
        found.append((clause[1], code[clause.end() + 1 : at - 1]))
    if not re.compile(r"\s*[{;]").match(code, at):
        found.append(("", code[at:].lstrip().split("\n")[0]))
    return found


def implementations(code):
    """From where to where each `impl` block reaches, and its type."""
    for found in re.finditer(r"(?<!\w)impl\b([^{;]*)(?=\{)", code):
        types = re.findall(r"(?<!')\b\w+", found[1].rpartition(" for ")[2])
        yield found.end(), balanced(code, found.end()), types[0] if types else ""


def function(path, code, found):
    """The function whose head begins at a match."""
    at = found.end()
    if code[at : at + 1] == "<":
        at = balanced(code, at)
    opening = code.index("(", at)
    closing = balanced(code, opening)
    own = next((kind for start, end, kind in implementations(code) if start <= at < end), "")
    # A result's type may hold a `;`, in an array's brackets.
    result = re.compile(r"\s*(?:->\s*((?:\[[^\n{]*\]|[^{;])*?))?\s*(?=\brequires\b|\bensures\b|\{|;)").match(code, closing)
    kind = (result and result[1] or "").strip()
    attributes = ATTRIBUTES.search(code, 0, found.start())
    exported = attributes is not None and re.search(r"no_mangle|export_name", attributes[0]) is not None
    public = found[1] is not None and "(" not in found[1]
    heads = clauses(code, result.end() if result else closing)
    return Function(path, found[2], public or exported, exported, parameters(code[opening + 1 : closing - 1], own), re.sub(r"\bSelf\b", own, kind), heads)


def fields(code, at):
    """The names of a struct's fields; those of a tuple struct are numbers."""
    if code[at] == ";":
        return []
    parts = [part for part in split_outside(code[at + 1 : balanced(code, at) - 1], ",") if part.strip()]
    if code[at] == "(":
        return [str(number) for number in range(len(parts))]
    return [re.findall(r"\w+", part.partition(":")[0])[-1] for part in parts]


def tactic_paths(code, word, crate):
    """The paths in `using(..)` or `unfolding(..)` of a `tactic(..)` attribute; `crate` is the file's own."""
    found = []
    for attribute in TACTIC.finditer(code):
        text = code[attribute.end() : balanced(code, attribute.end() - 1)]
        for listed in re.findall(rf"\b{word}\s*\(([^()]*)\)", text):
            paths = [tuple(re.findall(r"\w+", path)) for path in listed.split(",")]
            found += [(crate, *path[1:]) if path[0] == "crate" else path for path in paths if path]
    return found


@functools.cache
def source(path):
    code = rattle_code(path.read_text())
    crate = path.relative_to(CRATES).parts[0]
    brought = [one for found in re.findall(r"\bghost\s+use\s+([^;]*);", code) for one in imports_in(found)]
    structs = {found[1]: fields(code, found.end()) for found in STRUCT.finditer(code)}
    names = {name: kind.strip() for name, kind in re.findall(r"\btype\s+(\w+)[^=;]*=([^;\[]+);", code)}
    functions = [function(path, code, found) for found in FUNCTION.finditer(code)]
    enums = set(re.findall(r"\benum\s+(\w+)", code))
    using, unfolding = (tactic_paths(code, word, crate) for word in ("using", "unfolding"))
    return Source(path, code, brought, functions, structs, enums, names, using, unfolding)


def rattle_files():
    return [source(path) for path in sorted(CRATES.glob("*/src/**/*.rt"))]


def value_type(kind):
    """The type of the value in a `Result` or an `Option`, however deep, or none where a type is neither or has no value."""
    found = re.fullmatch(r"\s*(?:\w+\s*::\s*)*(Result|Option)\s*<(.*)>\s*", kind, re.S)
    if not found:
        return None
    inner = split_outside(found[2], ",")[0].strip()
    return value_type(inner) or (None if inner == "()" else inner)


def fields_of(kind, crate):
    """The fields of the struct that a type is, declared in that crate or in another one; none where it is no struct of the repository."""
    found = re.fullmatch(r"(?:\w+\s*::\s*)*(\w+)\s*(?:<[^<>]*>)?", kind)
    name = found[1] if found else None
    aliases = {alias: kind.rpartition(":")[2].strip() for file in rattle_files() for alias, kind in file.names.items()}
    while name in aliases:
        name = aliases.pop(name)
    found = [file for file in rattle_files() if name in file.structs or name in file.enums]
    own = [file for file in found if file.crate == crate] or found
    return sorted({one for file in own for one in file.structs.get(name, [])})
