"""The text that a text becomes under definitions, and its uses."""
from .characters import is_name, run_at, size, white_at
from .faults import fault_at
from .imports import declare_imports, substitute
from .kinds import kind_of, parsed_as
from .lines import covered_lines, lines_of
from .metadata import import_end


class Chain:
    """A chain of conditions that is open: whether its parent is active, an arm was taken, and its arm is active."""

    def __init__(self, parent_active, holds):
        self.parent_active = parent_active
        self.taken = holds
        self.active = parent_active and holds

    def next_arm(self, holds):
        self.active = self.parent_active and holds and not self.taken
        self.taken = self.taken or holds


class Preprocessor:
    """Reads a text line by line."""

    def __init__(self, text, definitions):
        self.lines = lines_of(text)
        self.covered = covered_lines(self.lines)
        self.definitions = definitions
        self.chains = []
        self.declared = {}
        self.uses = {}
        self.offset = 0
        self.written = []

    def run(self):
        at = 0
        while at < len(self.lines):
            at = self.read(at, kind_of(self.covered[at], True))
        if self.chains:
            raise fault_at("Not enough '# endif' lines. Each if statement should be followed by an endif statement.",
                           self.offset)
        return "".join(line + "\n" for line in self.written), self.uses

    def is_active(self):
        return not self.chains or self.chains[-1].active

    def read(self, at, kind):
        """Reads the line at a place, and answers the place behind what it takes."""
        end = at + 1
        written = " " * size(self.lines[at])
        if kind[0] == "version":
            if kind[1] not in ("440", "450"):
                raise fault_at("naga oil only supports glsl 440 and 450", self.offset)
        elif kind[0] in ("arm", "else", "endif"):
            self.read_condition(kind)
        elif kind[0] == "import" and self.is_active():
            end = import_end(self.covered, at)
            declare_imports("".join(line + "\n" for line in self.covered[at:end]), self.offset, self.declared)
        elif kind[0] == "text" and self.is_active():
            written = self.text_line(at)
        self.written.append(written)
        self.written += [" " * size(line) for line in self.lines[at + 1:end]]
        self.offset += sum(size(line) + 1 for line in self.lines[at:end])
        return end

    def read_condition(self, kind):
        if kind[0] == "arm" and not kind[1]:
            holds = self.holds(kind[2])
            self.chains.append(Chain(self.is_active(), holds))
            return
        holds = self.holds(kind[2]) if kind[0] == "arm" else True
        if kind[0] == "endif":
            if not self.chains:
                raise fault_at("Too many '# endif' lines. Each endif should be preceded by an if statement.",
                               self.offset)
            self.chains.pop()
        elif not self.chains:
            raise fault_at("'#else' without preceding condition.", self.offset)
        else:
            self.chains[-1].next_arm(holds)

    def holds(self, test):
        name = test[1]
        if test[0] != "if":
            return (name in self.definitions) == (test[0] == "ifdef")
        if name not in self.definitions:
            raise fault_at(f"Unknown shader def: '{name}'", self.offset)
        kind, left = self.definitions[name]
        operator, text = test[2:]
        right = parsed_as(kind, text)
        if right is None:
            raise fault_at(f"Invalid shader def comparison for '{name}': expected {kind}, got {text}", self.offset)
        results = {"==": left == right, "!=": left != right, ">": left > right, ">=": left >= right,
                   "<": left < right, "<=": left <= right}
        if operator not in results:
            raise fault_at(f"Unknown shader def operator: '{operator}'", self.offset)
        return results[operator]

    def text_line(self, at):
        line = replace(self.lines[at], self.definitions)
        covered = replace(self.covered[at], self.definitions)
        substitute(covered, self.offset, self.declared, self.uses, False)
        written = substitute(line, self.offset, self.declared, {}, True)
        return written + " " * (size(self.lines[at]) - size(written))


def preprocess(text, definitions):
    """The preprocessed text and its uses, or the first fault."""
    return Preprocessor(text, definitions).run()


def replace(line, definitions):
    """A line with the values of defined names."""
    written, at = "", 0
    while "#" in line[at:]:
        start = line.index("#", at)
        name, end = name_behind_hash(line, start)
        written += line[at:start]
        written += value_text(definitions[name]) if name in definitions else line[start:end]
        at = end
    return written + line[at:]


def name_behind_hash(line, at):
    """The name of the `#NAME` or `#{NAME}` that begins at a place, and the place behind it; None where it is another `#`."""
    start = white_at(line, at + 1)
    braced = line.startswith("{", start)
    end = run_at(line, start + braced, is_name)
    name = line[start + braced:end]
    if name and (not braced or line.startswith("}", end)):
        return name, end + braced
    return None, at + 1


def value_text(definition):
    kind, value = definition
    return str(value).lower() if kind == "bool" else str(value)
