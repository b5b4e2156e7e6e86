"""Lines of a text, and lines with their comments covered."""
from .characters import size


def lines_of(text):
    """The lines of a text: a line ends before `\\n` or `\\r\\n`; nothing stands behind a last line end."""
    if text == "":
        return []
    parts = text.split("\n")
    last = parts.pop()
    parts = [part[:-1] if part.endswith("\r") else part for part in parts]
    return parts + [last] if last else parts


def cover_line(line, depth, quoted):
    """A line with its comments as spaces, and the state behind it: how many blocks are open, and whether a quote is."""
    if depth == 0 and not quoted and "/" not in line and '"' not in line:
        return line, depth, quoted
    covered = ""
    at = 0
    while at < len(line):
        two = line[at:at + 2]
        if quoted or (depth == 0 and line[at] == '"'):
            quoted = quoted != (line[at] == '"')
            covered += line[at]
            at += 1
        elif depth == 0 and two == "//":
            return covered + " " * size(line[at:]), depth, quoted
        elif two == "/*" or (depth > 0 and two == "*/"):
            depth += 1 if two == "/*" else -1
            covered += "  "
            at += 2
        else:
            covered += line[at] if depth == 0 else " " * size(line[at])
            at += 1
    return covered, depth, quoted


def covered_lines(lines):
    """All lines with their comments as spaces."""
    depth, quoted, result = 0, False, []
    for line in lines:
        covered, depth, quoted = cover_line(line, depth, quoted)
        result.append(covered)
    return result


def cover(text):
    """A text with its comments as spaces, where lines end in `\\n` alone."""
    return "\n".join(covered_lines(text.split("\n")))
