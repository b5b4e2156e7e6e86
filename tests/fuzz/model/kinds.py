"""Kinds of lines, read from covered lines.

A kind is a tuple: ("version", number), ("arm", is_else, test), ("else",), ("endif",), ("import",), ("path", name),
("define", name, value or None) or ("text",). A test is ("ifdef", name), ("ifndef", name) or
("if", name, operator, value)."""
import re

from .characters import is_name, is_value, is_white, run_at, white_at


def kind_of(line, with_version):
    """The first kind that fits."""
    start = white_at(line, 0)
    if with_version:
        number = version_number(line, start)
        if number:
            return ("version", number)
    if start == len(line) or line[start] != "#":
        return ("text",)
    rest = line[white_at(line, start + 1):]
    return condition_kind(rest) or other_kind(rest) or ("text",)


def version_number(line, at):
    word = "#version"
    if not line.startswith(word, at):
        return None
    behind = white_at(line, at + len(word))
    if behind == at + len(word):
        return None
    return re.compile("[0-9]*").match(line, behind).group()


def behind_word(text, word):
    """What stands behind a word and the white space behind it, or None."""
    if not text.startswith(word):
        return None
    behind = white_at(text, len(word))
    return text[behind:] if behind > len(word) else None


def condition_kind(rest):
    """The kind of a line of a condition, from what stands behind its `#`."""
    after_else = behind_word(rest, "else")
    for word in ("ifdef", "ifndef", "if"):
        for is_else, text in ((True, after_else), (False, rest)):
            if text is not None:
                test = test_of(word, behind_word(text, word))
                if test:
                    return ("arm", is_else, test)
    if rest.startswith("else"):
        return ("else",)
    if rest.startswith("endif"):
        return ("endif",)
    return None


def test_of(word, text):
    """The test of an `ifdef`, `ifndef` or `if`, from what stands behind that word."""
    if text is None:
        return None
    end = run_at(text, 0, is_name)
    name = text[:end]
    if not name:
        return None
    if word != "if":
        return (word, name)
    return comparison(name, text[end:])


def comparison(name, behind):
    """The test of an `if`, from its run of name characters and what follows."""
    start = white_at(behind, 0)
    end = run_at(behind, start, lambda c: c in "=!<>")
    value_start = white_at(behind, end)
    value = behind[value_start:run_at(behind, value_start, is_value)]
    if value:
        return ("if", name, behind[start:end], value)
    if len(name) >= 2:
        return ("if", name[:-1], "", name[-1])
    return None


def other_kind(rest):
    """The kind of an import, an import path or a define."""
    if rest.startswith("import") and len(rest) > 6 and is_white(rest[6]):
        return ("import",)
    path = behind_word(rest, "define_import_path")
    if path:
        return ("path", path[:run_at(path, 0, lambda c: not is_white(c))])
    define = behind_word(rest, "define")
    if define is None:
        return None
    end = run_at(define, 0, is_name)
    if end == 0:
        return None
    start = white_at(define, end)
    value = define[start:run_at(define, start, is_value)]
    return ("define", define[:end], value or None)


def braces_behind(line, count):
    """How many braces are open behind a covered line of an import."""
    return max(0, count + line.count("{") - line.count("}"))


def parsed_int(text, signed):
    """What Rust's parse of `i32` or `u32` gives, or None."""
    if not re.fullmatch("-?[0-9]+" if signed else "[0-9]+", text):
        return None
    low, high = (-2**31, 2**31 - 1) if signed else (0, 2**32 - 1)
    return int(text) if low <= int(text) <= high else None


def parsed_as(kind, text):
    """The value of a text as `bool`, `int` or `uint`, or None."""
    if kind == "bool":
        return {"true": True, "false": False}.get(text)
    return parsed_int(text, kind == "int")


def defined_value(text):
    """The value of a define: (kind, value), or None."""
    if not text:
        return ("bool", True)
    for kind in ("uint", "int", "bool"):
        value = parsed_as(kind, text)
        if value is not None:
            return (kind, value)
    return None
