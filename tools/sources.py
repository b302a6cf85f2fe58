"""The functions of the crates' sources, by line: what tools here read of them."""
import collections
import functools
import pathlib
import re

ROOT = pathlib.Path(__file__).resolve().parent.parent

# A function of a source: the path of its module, the folder of its type in proofs/ (or none), whether a trait asks for it, its name and its text.
Function = collections.namedtuple("Function", "module kind is_of_trait name text")


def module_of(path):
    return re.sub(r"(^|/)(lib|main|mod)$", "", path.removesuffix(".rt"))


def kind_of(header):
    """The folder of a type's functions in proofs/: the type, and the trait after it."""
    header = re.sub(r"<[^<>]*>", "", re.sub(r"<[^<>]*>", "", header))
    found = re.match(r"impl\s*(?:([\w:]+)\s+for\s+)?([\w:]+)", header)
    return "".join(part.split("::")[-1] for part in (found[2], found[1]) if part) if found else ""


@functools.cache
def functions(crate, path):
    """The function at each line of a source, or None. A function ends at the brace below its first column: sources are laid out by `rt fmt`."""
    lines = (ROOT / "crates" / crate / path).read_text().splitlines()
    by_line, kind, is_of_trait, number = [None] * len(lines), "", False, 0
    while number < len(lines):
        line = lines[number]
        if line.startswith("impl") and not line.endswith("{}"):
            kind, is_of_trait = kind_of(line), " for " in line
        elif line.startswith("}"):
            kind, is_of_trait = "", False
        found = re.match(r"( *)(?:pub(?:\([a-z]+\))? )?(?:const |unsafe |extern \"C\" )*fn (\w+)", line)
        if not found:
            number += 1
            continue
        end = number
        # (an empty body, or a declaration in a trait, ends on a line of its own)
        while end < len(lines) - 1 and not re.match(found[1] + r"(\}|\{\}|\S.*;$)", lines[end]):
            end += 1
        function = Function(module_of(path.removeprefix("src/")), kind, is_of_trait, found[2], "\n".join(lines[number : end + 1]))
        first = number
        # (its attributes, at which a goal of it may be reported)
        while first and lines[first - 1].lstrip().startswith("#["):
            first -= 1
        by_line[first : end + 1] = [function] * (end + 1 - first)
        number = end + 1
    return by_line
