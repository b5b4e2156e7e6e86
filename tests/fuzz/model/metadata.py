"""What a text says of itself before any definition is known."""
from . import directives
from .characters import size
from .faults import fault_at
from .imports import declare_imports, substitute
from .kinds import braces_behind, defined_value, kind_of
from .lines import covered_lines, lines_of


class Metadata:
    """Name, uses (by module: place and items), defines, directives and cleaned source of a text."""

    def __init__(self):
        self.name = None
        self.uses = {}
        self.defines = {}
        self.directives = None
        self.cleaned = ""


def metadata_of(text, defines_allowed):
    """The metadata of a text, or its first fault."""
    data = Metadata()
    data.cleaned, data.directives = directives.extract(text)
    lines = lines_of(data.cleaned)
    covered = covered_lines(lines)
    declared, at, offset = {}, 0, 0
    while at < len(lines):
        end = at + 1
        kind = kind_of(covered[at], False)
        if kind[0] == "import":
            end = import_end(covered, at)
            declare_imports("".join(line + "\n" for line in covered[at:end]), offset, declared)
        elif kind[0] == "path":
            data.name = kind[1]
        elif kind[0] == "define":
            define(data, kind, offset, defines_allowed)
        elif kind[0] == "text":
            substitute(covered[at], offset, declared, data.uses, True)
        offset += sum(size(line) + 1 for line in lines[at:end])
        at = end
    return data


def import_end(covered, at):
    """The place behind the lines that the import at a place takes."""
    count = braces_behind(covered[at], 0)
    at += 1
    while count > 0 and at < len(covered):
        count = braces_behind(covered[at], count)
        at += 1
    return at


def define(data, kind, offset, defines_allowed):
    _, name, text = kind
    if not defines_allowed:
        raise fault_at("#define statements are only allowed at the start of the top-level shaders", offset)
    value = defined_value(text)
    if value is None:
        raise fault_at(f"Invalid value for `#define`d shader def {name}: {text}", offset)
    data.defines[name] = value
