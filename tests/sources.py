"""What the scripts beside this file read of antt and Rattle sources.

The texts are cut by the languages' own rules of comments, names and layout, so that no way of writing a line hides it from a script.
"""
import functools
import itertools
import pathlib
import re
from dataclasses import dataclass, field

ROOT = pathlib.Path(__file__).resolve().parent.parent
CRATES = ROOT / "crates"

NAME = r'(?:«[^»]*»|[^\s(){}.;,@"«»]+)'
# What a word stands between, so that it is not part of a name.
WORD_START, WORD_END = r'(?<![^\s(){}.;,@"«»])', r'(?![^\s(){}.;,@"«»])'
PATH = re.compile(rf"{NAME}(?:\.{NAME})*")
# A text in quotes, a comment to the line's end, the start of a nested one, or anything up to the next of them.
ANTT_PART = re.compile(rf'"(?:\\.|[^"\\])*"|--[^\n]*|\{{-|(?:(?!--){NAME}|[\s()}}.;,@]|\{{(?!-))+|.', re.S)
COMMENT_END = re.compile(r"\{-|-\}")
# A lifetime has no closing quote.
RATTLE_TOKEN = re.compile(r"""//[^\n]*|/\*|b?r(#*)".*?"\1|b?"(?:\\.|[^"\\])*"|b?'(?:\\[^\n']+|[^\\\n'])'|.""", re.S)
BLOCK_COMMENT_END = re.compile(r"/\*|\*/")


def blank(text):
    """As many spaces, with the line ends kept, so that places stay what they were."""
    return re.sub(r"[^\n]", " ", text)


def after_comment(text, start, mark):
    """Where a nested comment ends that begins at `start`."""
    depth, opening = 0, text[start : start + 2]
    for found in mark.finditer(text, start):
        depth += 1 if found[0] == opening else -1
        if depth == 0:
            return found.end()
    return len(text)


def antt_code(text):
    """An antt text without its comments and quoted texts. `--` begins a comment where a name could begin, and is part of one elsewhere."""
    parts, at = [], 0
    while at < len(text):
        part = ANTT_PART.match(text, at)[0]
        end = after_comment(text, at, COMMENT_END) if part == "{-" else at + len(part)
        hidden = part.startswith(("{-", "--", '"')) and part != '"'
        parts.append(blank(text[at:end]) if hidden else part)
        at = end
    return "".join(parts)


def rattle_code(text):
    """A Rattle text without its comments and what stands in quotes; the quotes stay."""
    parts, at = [], 0
    while at < len(text):
        found = RATTLE_TOKEN.match(text, at)
        token, end = found[0], found.end()
        if token == "/*":
            end = after_comment(text, at, BLOCK_COMMENT_END)
            parts.append(blank(text[at:end]))
        elif token.startswith("//"):
            parts.append(blank(token))
        elif len(token) > 1:
            parts.append('"' + blank(token[1:-1]) + '"')
        else:
            parts.append(token)
        at = end
    return "".join(parts)


def indent(line):
    return len(line) - len(line.lstrip())


def plain(name):
    """`«x»` is `x`."""
    return name[1:-1] if name.startswith("«") else name


@functools.cache
def split_path(text):
    return tuple(plain(name) for name in re.findall(NAME, text))


@dataclass(frozen=True)
class Import:
    """A name that a `use` line brings, and the path written for it; the name `*` stands for all of a module's."""

    name: str
    path: tuple


def imports_in(text, prefix=()):
    """What follows a `use`: a path, perhaps with a list in braces, lists within lists, and `as` names."""
    head, brace, rest = text.partition("{")
    if not brace:
        path, _, alias = (part.strip() for part in re.sub(r"\s+", " ", text).strip().partition(" as "))
        names = prefix + split_path(path)
        return [Import(plain(alias) or names[-1], names)] if names else []
    inner = rest.rpartition("}")[0]
    return [one for item in split_outside(inner, ",") for one in imports_in(item, prefix + split_path(head))]


def split_outside(text, mark):
    """The parts between marks that stand in no bracket."""
    parts, depth, start = [], 0, 0
    for at, char in enumerate(text):
        depth += (char in "({[") - (char in ")}]")
        if char == mark and depth == 0:
            parts.append(text[start:at])
            start = at + 1
    return parts + [text[start:]]


@dataclass(eq=False)
class Declaration:
    """A signature with its clauses, a data type or a record."""

    name: str
    marks: frozenset
    kind: str
    type: str
    text: str
    line: int

    def bound(self):
        """The names that stand for variables somewhere in the text: of binders, of `let` and `λ`, and of the clauses' patterns."""
        binders = re.findall(r"[({]([^(){}:]*?)\s:\s|\blet\s+([^=:]*?)\s[=:]|λ\s+([^.:]*)\.", self.text)
        defined = {self.name, *map(plain, re.findall(rf"^ +({NAME}) : ", self.text, re.M))}
        clauses = re.findall(rf"^ *({NAME})((?: [^=:\n]*?)?) =\s", self.text, re.M)
        patterns = [text for name, text in clauses if plain(name) in defined]
        return {plain(name) for text in [*map(" ".join, binders), *patterns] for name in re.findall(NAME, text)}

    @functools.cached_property
    def cited(self):
        """The paths that the text holds, but for variables."""
        bound = self.bound()
        return {path for path in map(split_path, PATH.findall(self.text)) if path[0] not in bound}


HEADER = re.compile(rf"(?:(?:pub|unfoldable)\s+)*(use|mod){WORD_END}\s*(.*)", re.S)
SIGNATURE = re.compile(rf"((?:(?:unfoldable|abbrev|axiom|pub)\s+)*)(data\s+|record\s+|ruleset\s+)?({NAME})(.*)", re.S)
BLOCK = re.compile(r"module\s.*\swhere|(?:(?:unfoldable|abbrev)\s+)*mutual", re.S)


def unclosed(lines):
    """Whether a bracket is open at the end: a list in braces may go on at any column."""
    return sum(line.count("{") + line.count("(") - line.count("}") - line.count(")") for line in lines) > 0


def items(code):
    """The lines of the header and of declarations, with what is indented under each; blocks `module` and `mutual` are opened."""
    columns, current, opening = [], None, True
    for number, line in enumerate(code.split("\n"), 1):
        if not line.strip():
            continue
        column = indent(line)
        if opening and (not columns or column > columns[-1]):
            columns.append(column)
        elif column > columns[-1] or unclosed(current[1]):
            current[1].append(line)
            opening = BLOCK.fullmatch("\n".join(current[1]).strip()) is not None
            continue
        while len(columns) > 1 and column < columns[-1]:
            columns.pop()
        if current:
            yield current[0], "\n".join(current[1]).strip()
        current = (number, [line])
        opening = BLOCK.fullmatch(line.strip()) is not None
    if current:
        yield current[0], "\n".join(current[1]).strip()


class InCrate:
    """A file, by its place below `crates`."""

    @property
    def where(self):
        return self.path.relative_to(CRATES).as_posix()

    @property
    def crate(self):
        return self.path.relative_to(CRATES).parts[0]


@dataclass(eq=False)
class Module(InCrate):
    """An antt file."""

    path: pathlib.Path
    code: str
    imports: list = field(default_factory=list)
    children: list = field(default_factory=list)
    public_children: list = field(default_factory=list)
    declarations: list = field(default_factory=list)

    def blocks_around(self, line):
        """The heads of the `module` blocks in which a line stands, outermost first: what they bind is part of a statement."""
        lines, heads = self.code.split("\n"), []
        column = indent(lines[line - 1])
        for at in range(line - 2, -1, -1):
            if lines[at].strip() and indent(lines[at]) < column:
                column = indent(lines[at])
                heads.insert(0, re.match(r"module\s.*?\swhere\b", "\n".join(lines[at:]).lstrip(), re.S))
        return [head[0] for head in heads if head]

    def statement(self, declaration):
        """A declaration's signature with the heads of the blocks around it, in one line of single spaces. Quoted texts are as written."""
        lines = self.path.read_text().split("\n")[declaration.line - 1 :]
        under = itertools.takewhile(lambda line: line.strip() and indent(line) > indent(lines[0]), lines[1:])
        signature = re.sub(r"^(?:(?:pub|unfoldable|abbrev)\s+)*", "", " ".join([lines[0], *under]).strip())
        return " ".join(" ".join([*self.blocks_around(declaration.line), signature]).split())

    def declared(self, name):
        """The declaration of that name. A name that a `use` line brings is none, whatever a `where` block calls so."""
        if any(one.name == name for one in self.imports):
            return None
        return next((one for one in self.declarations if one.name == name), None)


def read_header(module, item):
    """Whether the item is a line of the header, which is kept."""
    found = HEADER.fullmatch(item)
    if not found:
        return False
    if found[1] == "use":
        module.imports += imports_in(found[2])
    else:
        module.children.append(plain(found[2].strip()))
        if item.startswith("pub"):
            module.public_children.append(module.children[-1])
    return True


def read_declaration(module, line, item):
    """A signature begins a declaration; whatever else stands in the place of one is part of the declaration above."""
    found = SIGNATURE.fullmatch(item)
    rest = found[4].lstrip() if found else ""
    kind = (found[2] or "").strip() if found else ""
    signature = found and (kind or re.match(rf"(?:\{{[^{{}}]*\}}\s*)?:{WORD_END}", rest))
    if signature:
        marks = frozenset(found[1].split())
        kind = kind or "signature"
        module.declarations.append(Declaration(plain(found[3]), marks, kind, rest.partition(":")[2].strip(), item, line))
    elif module.declarations:
        module.declarations[-1].text += "\n" + item


@functools.cache
def antt(path):
    module = Module(path, antt_code(path.read_text()))
    for line, item in items(module.code):
        if not read_header(module, item) and not BLOCK.fullmatch(item):
            read_declaration(module, line, item)
    return module


def source_files(ending):
    """The files of that ending in the crates' folders, but for what is built there."""
    found = (path for part in CRATES.glob("*/*") if part.name != "out" for path in part.rglob(f"*{ending}"))
    return sorted(path for path in (*found, *CRATES.glob(f"*/*{ending}")) if path.is_file())


def antt_files():
    return [antt(path) for path in source_files(".antt")]


def own_library(path):
    """The crate of this repository that a whole path begins with: `Rattle`, then its name."""
    return path[1] if path[:1] == ("Rattle",) and len(path) > 1 and (CRATES / path[1]).is_dir() else None


@functools.cache
def module_file(path):
    """The file of the longest path to a module that a path begins with, and the names left; None where none is written."""
    crate = own_library(path)
    if not crate:
        return None
    for length in range(len(path) - 1, 2, -1):
        file = CRATES.joinpath(crate, *path[2:length]).with_suffix(".antt")
        if file.is_file():
            return file, path[length:]
    return None


def module_path(module):
    """The path of a file as a module of its crate; that of `Lib` is its folder's."""
    crate, part, *rest = module.path.relative_to(CRATES).with_suffix("").parts
    return ("Rattle", crate, part, *(() if rest == ["Lib"] else rest))


def absolute(path, module, without=frozenset()):
    """The whole paths that a path written in a file may mean, library first. Its first name is a child's, a brought one or a library's."""
    head, rest = path[0], path[1:]
    if head == "package":
        return [rest] if rest else []
    if head in module.children:
        return [module_path(module) + path]
    brought = [one for one in module.imports if one.name == head and one not in without]
    if not brought:
        return [path]
    return [whole + rest for one in brought for whole in absolute(one.path, module, without | {one})]


# What `rt ci` last said: `tests/run` keeps it.
CI_LOG = ROOT / "target" / "ci.log"

# What it says of a must-fail edit: the first fact that fails, where there is one, behind the place in the crate.
VERDICT = re.compile(r"^rt: must-fail (\w+)/([\w.-]+)\.edit: (.*)$", re.M)
REFUSED = re.compile(r"refused, as it must be: (?:note: )?(?:\./)?(\S+?):\d+:\d+: (?:error: )?(.*)")

# An error that shows no fact to fail: what an edit did away with is missing, or its own words are no antt.
SHAPE = re.compile(r"has no `[^`]*` that can be named|has no field|is not in scope|cannot continue the declaration")


@functools.cache
def verdicts():
    """What `rt ci` last said of each must-fail edit, by crate and label; none where it was not run."""
    text = CI_LOG.read_text() if CI_LOG.is_file() else ""
    return {(crate, label): said for crate, label, said in VERDICT.findall(text)}


def shapeless(said):
    """Whether what was said of a refusal is no fact that fails. An error in a declaration begins with its name; one of parsing does not."""
    return SHAPE.search(said) is not None or not re.match(r"`|it is not proved that", said)


def must_fail_edit(crate, label):
    """The file of a must-fail edit."""
    return CRATES / crate / "must-fail" / f"{label}.edit"


class BadEdit(Exception):
    """An edit that cannot be applied."""


def edit_pairs(text, line_end=None):
    """The file, old and new text of each pair of an edit, with `line_end` for the end of a line. Without an `old:` a file is written, and where
    `gone:` names it there is no new text."""
    file = old = None
    for line in text.split("\n"):
        value = line.partition(":")[2].removeprefix(" ")
        value = value.replace(line_end, "\n") if line_end else value
        if line.startswith("file: "):
            file = value
        elif line.startswith("old: "):
            old = value
        elif line.startswith("new:"):
            yield file, old, value
            old = None
        elif line.startswith("gone: ") and line_end:
            yield value, None, None


def apply_edit(text, folder, line_end=None):
    """Each `old:` text of an edit, which stands once in the `file:` above it, replaced by the `new:` text."""
    pairs = list(edit_pairs(text, line_end))
    for file, old, new in pairs:
        path = folder / file
        before = path.read_text() if path.is_file() else ""
        if new is None:
            path.unlink()
        elif line_end and not old and not before:
            path.parent.mkdir(parents=True, exist_ok=True)
            path.write_text(new)
        elif not old or before.count(old) != 1:
            raise BadEdit(f"an 'old:' text stands {before.count(old) if old else 0} times in {file}")
        else:
            path.write_text(before.replace(old, new))
    if not pairs:
        raise BadEdit("it has no 'old:' and 'new:' pair")
