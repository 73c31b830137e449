"""What the pictures are made from: the sources, each read in the form that it has. Where it no longer has it, that is said and nothing is drawn."""
import ast
import re
import sys
from functools import cache
from pathlib import Path

ROOT = Path(__file__).resolve().parent.parent.parent


def fail(fault):
    sys.exit(f"tools/pictures: {fault}")


@cache
def read(path):
    """A source's text with its line ends as they are."""
    if not (ROOT / path).exists():
        fail(f"there is no {path}")
    return (ROOT / path).read_bytes().decode()


def found(form, path, what):
    """Every match of a form in a source; at least one."""
    matches = re.findall(form, read(path), re.MULTILINE | re.DOTALL)
    if not matches:
        fail(f"{path}: {what} is not in the form that is read here")
    return matches


def definition(path, name):
    """The lines that define a name, without its type and without comments; they end at an empty line or at what is defined next."""
    lines = found(rf"^{name} (?!:)(.*?)(?=^--|^\s*$|^abbrev|^unfoldable|^pub|\Z)", path, f"the definition of {name}")[0]
    return re.sub(r"--.*", "", lines)


@cache
def constant(path, name):
    """A constant of a script: a number, a text, or lists and tables of these."""
    for line in ast.parse(read(path)).body:
        if isinstance(line, ast.Assign) and line.targets[0].id == name:
            return ast.literal_eval(line.value)
    fail(f"{path}: there is no {name}")


def place_name(segment, field, component):
    """A place in 01's words: a field of a simple type is told without its one component."""
    kinds = {int(item.split()[0]): item.split()[1] for item in constant("tools/profile", "SEGMENTS")[segment].split("; ")}
    composed = kinds.get(field) in constant("tools/profile", "TYPES")
    return f"{segment}-{field}.{component}" if composed else f"{segment}-{field}"
