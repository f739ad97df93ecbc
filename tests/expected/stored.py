"""The stored cases: pairs NAME.in and NAME.out, and tables of inputs that differ in one place.

A table has three sections, parted by lines `==`: the input with `@` for what differs, the output with `@`, and the rows. A row is
`VALUE | ANSWER`. VALUE takes the place of `@` in the input, with Python's escapes for bytes that would not show; ANSWER takes its
place in the output, a blank between lines. A line that is `@` alone has no newline of its own in the input, so that a value may
end without one. Lines that begin with `#` are comments.
"""
import collections
import pathlib

HERE = pathlib.Path(__file__).resolve().parent

Case = collections.namedtuple("Case", "name input output")


def cases():
    """All stored cases, by the names of their files."""
    for path in sorted(HERE.rglob("*")):
        name = path.relative_to(HERE).with_suffix("").as_posix()
        if path.suffix == ".in":
            yield Case(name, path.read_bytes(), path.with_suffix(".out").read_bytes())
        elif path.suffix == ".table":
            yield from rows(name, path.read_text())


def rows(name, table):
    lines = [line for line in table.splitlines() if not line.startswith("#")]
    first, second = (place for place, line in enumerate(lines) if line == "==")
    for row in filter(str.strip, lines[second + 1 :]):
        value, answer = (part.strip() for part in row.split("|"))
        yield Case(
            f"{name}: {value}",
            filled(lines[:first], unescaped(value)),
            filled(lines[first + 1 : second], b"".join(line.encode() + b"\n" for line in answer.split())),
        )


def unescaped(value):
    return value.encode().decode("unicode_escape").encode("latin-1")


def filled(template, value):
    """The template's lines with the value in the place of `@`."""
    lines = (value if line == "@" else line.encode().replace(b"@", value) + b"\n" for line in template)
    return b"".join(lines)
