"""The program `oil`: its words, what it prints, and its status."""
from . import mini, version
from .characters import is_name, is_value
from .composer import Composer
from .decoration import undecorate
from .faults import Fault, Usage
from .kinds import defined_value
from .metadata import metadata_of
from .preprocess import preprocess

OPTION = "--override-any"


def usage():
    option = f"[{OPTION}] " if version.OVERRIDE_ANY else ""
    return f"usage: oil pre FILE [NAME=VALUE..] | oil make {option}TOP [MODULE..] [+NAME..] [NAME=VALUE..]"


def run(words, read):
    """Status, standard output and standard error for the words; `read` gives a file's bytes, or None."""
    try:
        return 0, answer(words, read), ""
    except Usage as told:
        return 2, "", f"{told}\n"
    except Fault as fault:
        return 1, "", report(fault)


def answer(words, read):
    command, rest = (words[0], words[1:]) if words else ("", [])
    override_any = version.OVERRIDE_ANY and command == "make" and rest[:1] == [OPTION]
    rest = rest[1:] if override_any else rest
    definitions = [word for word in rest if "=" in word]
    additional = [word[1:] for word in rest if "=" not in word and word.startswith("+")]
    files = [word for word in rest if "=" not in word and not word.startswith("+")]
    one_file = command == "pre" and len(files) == 1 and not additional
    if not one_file and not (command == "make" and files):
        raise Usage(usage())
    known = dict(definition_of(word) for word in definitions)
    texts = [(path, text_of(path, read)) for path in files]
    return pre(*texts[0], known) if command == "pre" else make(texts, additional, known, override_any)


def definition_of(word):
    name, _, value = word.partition("=")
    known = defined_value(value)
    if not name or not all(map(is_name, name)) or not all(map(is_value, value)) or known is None:
        raise Usage(f"bad definition {word}")
    return name, known


def text_of(path, read):
    data = read(path)
    try:
        if data is not None:
            return data.decode()
    except UnicodeDecodeError:
        pass
    raise Usage(f"cannot read {path}")


def pre(path, text, definitions):
    try:
        data = metadata_of(text, True)
        return preprocess(data.cleaned, {**definitions, **data.defines})[0]
    except Fault as fault:
        raise fault.within((path, text, 0))


def make(texts, additional, definitions, override_any):
    composer = Composer(override_any)
    for path, text in texts[1:]:
        composer.add(path, text)
    return mini.write(composer.make(*texts[0], additional, definitions))


def report(fault):
    """What is printed of a fault."""
    lines = [f"error: {fault.message}"]
    if fault.source is not None:
        lines += places_told(fault, *fault.source)
    lines += [f"  note: {note}" for note in fault.notes]
    return undecorate("".join(line + "\n" for line in lines))


def places_told(fault, path, text, offset):
    if fault.line is not None:
        return [f"  at {path}:{fault.line + 1}:1"]
    if not fault.places:
        return [f"  in {path}"]
    data = text.encode()
    lines = []
    for start, label in fault.places:
        before = data[:max(0, start % 2**21 - offset)]
        column = len(before) - (before.rfind(b"\n") + 1) + 1
        line = f"  at {path}:{before.count(bytes([10])) + 1}:{column}"
        lines.append(line + (f": {label}" if label else ""))
    return lines
