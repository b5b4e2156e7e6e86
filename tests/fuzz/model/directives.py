"""Directives at the start of a text."""
from .characters import WHITE, is_white, white_at
from .faults import Fault
from .lines import lines_of

SEVERITIES = ("off", "info", "warn", "error")


class Directives:
    """What a text enables, what it requires, and its diagnostics."""

    def __init__(self):
        self.enables = []
        self.requires = []
        self.diagnostics = []

    def text(self):
        """The directives as they are written before a build's text."""
        lines = []
        for word, names in (("enable", self.enables), ("requires", self.requires)):
            if names:
                lines.append(f"{word} {', '.join(sorted(set(names), key=str.encode))};")
        lines += [f"diagnostic({severity}, {rule});" for severity, rule in self.diagnostics]
        return "".join(line + "\n" for line in lines) + ("\n" if lines else "")


def extract(text):
    """The text without its directives, and these."""
    found, lines, inside = Directives(), lines_of(text), True
    for index, line in enumerate(lines):
        trimmed = line.strip(WHITE)
        if not inside or trimmed == "" or trimmed.startswith("//"):
            continue
        if read_directive(trimmed, index, found):
            lines[index] = ""
        elif not trimmed.startswith(("enable", "requires", "diagnostic")):
            inside = False
    return "\n".join(lines), found


def invalid(line, index, reason):
    return Fault(f"Invalid WGSL directive '{line}' at line {index}: {reason}", line=index)


def read_directive(line, index, found):
    """Reads a trimmed line as a directive and says whether it is one."""
    for word, names in (("enable", found.enables), ("requires", found.requires)):
        if line.startswith(word):
            return read_list(line, index, line[len(word):], names)
    if line.startswith("diagnostic"):
        return read_diagnostic(line, index, found)
    return False


def read_list(line, index, behind, names):
    text, ended, _ = behind.partition(";")
    if not ended or len(text) < 2 or not is_white(text[0]):
        return False
    parts = [part.strip(WHITE) for part in text.split(",")]
    parts = [part for part in parts if part]
    if not parts:
        raise invalid(line, index, "No extensions specified")
    names += parts
    return True


def read_diagnostic(line, index, found):
    at = white_at(line, len("diagnostic"))
    if not line.startswith("(", at):
        return False
    severity, comma, behind = line[at + 1:].partition(",")
    rule, brace, behind = behind.partition(")")
    if not (severity and comma and rule and brace) or not behind.lstrip(WHITE).startswith(";"):
        return False
    severity = severity.strip(WHITE)
    if severity not in SEVERITIES:
        raise invalid(line, index, f"Invalid severity '{severity}'. Must be one of: {', '.join(SEVERITIES)}")
    found.diagnostics.append((severity, rule.strip(WHITE)))
    return True
