"""What a term or a definition of antt says of one of its variables, read from the text."""
import functools
import re
from dataclasses import dataclass

from sources import NAME, PATH, absolute, antt, module_file, plain, split_path

TOKEN = re.compile(rf"(?<=[\s)}}])\.{NAME}|{PATH.pattern}|[(){{}};,.]|\S")
# What joins propositions, binds or separates: an equation reaches no further.
LOOSE = {"×", "→", "⊎", "↔", "¬", "∗", ",", ";", ".", "=", "λ", "let", "in", "do", "←", ":", "as", "∣", "where"}
# Between the same two sides these say nothing.
REFLEXIVE = ("≡", "≤", "→", "↔", "⊆", "==")


def tree(text):
    """The tokens of a term; what stands in brackets is a list, with the brace first where it is one, and one token alone is itself."""
    stack = [[]]

    def close():
        group = stack.pop()
        stack[-1].append(group[0] if len(group) == 1 else group)

    for token in TOKEN.findall(text.replace("⌜", " ( ").replace("⌝", " ) ")):
        if token in "({":
            stack.append(["{"] if token == "{" else [])
        elif token not in ")}":
            stack[-1].append(token)
        elif len(stack) > 1:
            close()
    while len(stack) > 1:
        close()
    return stack[0]


def bare(tokens):
    """A term of one token is that token."""
    return tokens[0] if isinstance(tokens, list) and len(tokens) == 1 else tokens


def implicit(token):
    return isinstance(token, list) and token[:1] == ["{"]


def operator(token):
    return isinstance(token, str) and (token in LOOSE or not (token[0].isalnum() or token[0] in "_◌«[."))


def cut(tokens, ends):
    """The tokens between those that `ends` holds of, and what stands before and after each part."""
    part, before = [], None
    for token in [*tokens, None]:
        if token is None or ends(token):
            if part:
                yield before, part, token
            part, before = [], token
        else:
            part.append(token)


def groups(tokens):
    """A list of tokens and all lists in it."""
    yield tokens
    for token in tokens:
        if isinstance(token, list):
            yield from groups(token)


def concluded(tokens):
    """A term without the premises of its implications: what is named in a premise alone is not spoken of."""
    start = max((at + 1 for at, token in enumerate(tokens) if token == "→"), default=0)
    return [concluded(token) if isinstance(token, list) else token for token in tokens[start:]]


def says_nothing(text):
    """A relation in the term of which both sides are the same."""
    for tokens in groups(tree(text)):
        for mark in REFLEXIVE:
            for _, part, _ in cut(tokens, lambda token: isinstance(token, str) and token in LOOSE - {mark}):
                sides = [bare(side) for _, side, _ in cut(part, lambda token: token == mark)]
                if mark in part and len(sides) == 2 and sides[0] == sides[1]:
                    return f"the same on both sides of {mark}"
        if tokens and tokens[0] in ("◌≡◌", "◌==◌", "◌≤◌") and tokens[-2:-1] == tokens[-1:]:
            return f"the same twice after {tokens[0]}"
    return None


@dataclass
class Definition:
    """A declaration with the file that its names are to be read in."""

    module: object
    declaration: object


@functools.cache
def definition(path, place):
    """What a path written in a place, an antt file or a contract's, means among the declarations of this repository."""
    if len(path) == 1 and hasattr(place, "declared") and (found := place.declared(path[0])):
        return Definition(place, found)
    for whole in absolute(path, place):
        file = module_file(whole)
        if file and len(file[1]) == 1:
            module = antt(file[0])
            if found := module.declared(file[1][0]):
                return Definition(module, found)
            # passed on by a `use` of that file
            if module is not place:
                return definition(file[1], module)
    return None


def record_parameters(head):
    """The names of a record's or data type's explicit parameters."""
    names = []
    for token in re.findall(r"\(([^():]*):|(\{)", head):
        names += [plain(name) for name in token[0].split()]
    return names


def bodies(known, index):
    """The texts of a definition, each with the name of its argument at an index, or of a part of it where a clause takes it apart: of each
    clause, or of each field of a record."""
    declaration = known.declaration
    if declaration.kind in ("record", "data"):
        head, _, body = declaration.text.partition(" where")
        names = record_parameters(head)
        parts = re.split(rf"\n\s*(?:pub\s+)?{NAME}\s+:(?=\s)", body)
        return [(names[index], part) for part in parts if index < len(names)]
    found = []
    for clause in re.split(rf"\n(?={re.escape(declaration.name)}\s)", declaration.text)[1:]:
        left, equals, right = re.split(r"(?<=\s)(=)(?=\s)", clause, maxsplit=1) if re.search(r"\s=\s", clause) else (clause, "", "")
        patterns = [token for token in tree(left)[1:] if not implicit(token)]
        if equals and index < len(patterns):
            pattern = patterns[index]
            names = [pattern] if isinstance(pattern, str) else [part for part in pattern[1:] if isinstance(part, str)]
            found += [(plain(name), right) for name in names]
    return found


def told_apart(known, index):
    """Whether a definition tells all values of its argument at an index apart: each clause names one there that has no parts, and gives another."""
    declaration = known.declaration
    if declaration.kind in ("record", "data"):
        return False
    given = []
    for clause in re.split(rf"\n(?={re.escape(declaration.name)}\s)", declaration.text)[1:]:
        left, _, right = clause.partition(" = ")
        patterns = [token for token in tree(left)[1:] if not implicit(token)]
        if index >= len(patterns) or not isinstance(patterns[index], str) or not patterns[index][:1].isupper():
            return False
        given.append(right.strip())
    return 1 < len(given) == len(set(given))


def uses(text, name):
    """How a term uses a variable: ("field", f), ("whole", the operator beside it), or ("argument", the function's path, which one)."""
    for tokens in groups(concluded(tree(text))):
        for before, part, after in cut(tokens, operator):
            for at, token in enumerate(part):
                tight = split_path(token) if isinstance(token, str) and not token.startswith(".") else ()
                if tight[:1] == (name,) and len(tight) > 1:
                    yield "field", tight[1]
                if tight != (name,):
                    continue
                following = part[at + 1] if at + 1 < len(part) else None
                if at == 0 and isinstance(following, str) and following.startswith("."):
                    yield "field", plain(following[1:])
                elif at == 0 and len(part) == 1:
                    yield "whole", before if before == "≡" else after
                elif at > 0 and isinstance(part[0], str):
                    yield "argument", split_path(part[0]), at - 1 - sum(map(implicit, part[:at]))


def told(text, name, part, place, seen=frozenset()):
    """Whether a term speaks of a field of a variable, or of the variable itself where `part` is None, itself or by the definitions that it
    hands the variable to. What a definition of the kit does with it is not looked at."""
    if says_nothing(text):
        return False
    for kind, what, *index in uses(text, name):
        if kind == "field" and part in (None, what):
            return True
        if kind == "whole" and (what == "≡" or part is None and bare(tree(text)) != name):
            return True
        if kind == "argument":
            known = definition(what, place)
            if known is None:
                if part is None:
                    return True
                continue
            if part is None and told_apart(known, index[0]):
                return True
            key = (known.module.path, known.declaration.name, index[0])
            if key not in seen and any(told(body, own, part, known.module, seen | {key}) for own, body in bodies(known, index[0])):
                return True
    return False


# What gives the value in a result or an option, or hands it to a term with a variable of its own.
UNWRAPPED = r"(?:result_unwrap_or|unwrap_or)"
HANDED = r"(?:IfOk|IfSome|IsOkAnd|IsSomeAnd|MatchOption|MatchResult)"
ATOM = r"(?:[^\s()]+|\((?:[^()]|\((?:[^()]|\([^()]*\))*\))*\))"


def values(text, name):
    """A term with one variable for the value in a result or an option, and the names that stand for it."""
    held = f"{name}·value"
    own = rf"(?<![\w.·]){re.escape(name)}(?![\w.·])"
    text, inline = re.subn(rf"\(\s*{UNWRAPPED}\s+{own}\s+{ATOM}\s*\)", f" {held} ", text)
    bound = rf"\blet\s+(\w+)\s*=\s*{UNWRAPPED}\s+{own}\s+{ATOM}\s+in\b"
    names = set(re.findall(bound, text))
    text = re.sub(bound, " ", text)
    names |= set(re.findall(rf"\b{HANDED}\s+{own}.*?\(λ\s+\(?(\w+)", text, re.S))
    return text, names | ({held} if inline else set())


def handed_on(text, name, place, seen=frozenset()):
    """Whether a term puts a variable somewhere as a whole, itself or by the definitions that it hands it to."""
    for kind, what, *index in uses(text, name):
        if kind == "whole" and bare(tree(text)) != name:
            return True
        if kind == "argument" and (known := definition(what, place)):
            key = (known.module.path, known.declaration.name, index[0])
            if key not in seen and any(handed_on(body, own, known.module, seen | {key}) for own, body in bodies(known, index[0])):
                return True
    return False


def value_told(text, name, part, place, seen=frozenset()):
    """Whether a term speaks of the value in a result or an option, or of a field of it, as `told` does of a variable."""
    if says_nothing(text):
        return False
    if any(kind == "whole" and what == "≡" for kind, what, *_ in uses(text, name)):
        return True
    unwrapped, names = values(text, name)
    if any(told(unwrapped, one, part, place) or handed_on(unwrapped, one, place) for one in names):
        return True
    for kind, what, *index in uses(text, name):
        if kind == "argument" and (known := definition(what, place)):
            key = (known.module.path, known.declaration.name, index[0])
            if key not in seen and any(value_told(body, own, part, known.module, seen | {key}) for own, body in bodies(known, index[0])):
                return True
    return False
