"""Random changes of texts that stand in the repository: the examples and the texts of the crates' tests."""
import os
import re

LITERAL = re.compile(r'"((?:[^"\\]|\\.)*)"', re.DOTALL)
ESCAPES = {"n": "\n", "r": "\r", "t": "\t", "0": "\0", "\\": "\\", '"': '"', "'": "'"}
PIECES = re.compile(r"\w+|\s|[^\w\s]")


def literal_text(text):
    """The text that a literal of a test says."""
    text = re.sub(r"\\\n\s*", "", text)
    text = re.sub(r"\\u\{([0-9a-fA-F]+)\}", lambda found: chr(int(found[1], 16)), text)
    return re.sub(r"\\(.)", lambda found: ESCAPES.get(found[1], found[1]), text)


def collected(root):
    """All texts of the repository that are worth changing."""
    texts = []
    for folder, _, names in os.walk(os.path.join(root, "examples")):
        texts += [open(os.path.join(folder, name), encoding="utf-8").read() for name in sorted(names) if name.endswith((".txt", ".wgsl"))]
    for folder, _, names in sorted(os.walk(os.path.join(root, "crates"))):
        for name in sorted(names):
            path = os.path.join(folder, name)
            if name.endswith(".rt") and "tests" in os.path.relpath(path, root):
                found = LITERAL.findall(open(path, encoding="utf-8").read())
                texts += [literal_text(text) for text in found]
    return [text for text in dict.fromkeys(texts) if re.search("[#\n\"/:]| = ", text) and len(text) < 5000]


def pieces_of(text):
    return PIECES.findall(text)


def mutated(random, texts):
    """A text with a few pieces dropped, doubled, swapped or taken from another text."""
    text = random.choice(texts)
    pieces = pieces_of(text)
    for _ in range(random.choice([0, 1, 1, 2, 3, 6])):
        at = random.randrange(len(pieces) + 1)
        form = random.randrange(6)
        length = random.choice([1, 1, 2, 5])
        if form == 0:
            del pieces[at:at + length]
        elif form == 1:
            pieces[at:at] = pieces[at:at + length]
        elif form == 2:
            other = pieces_of(random.choice(texts))
            start = random.randrange(len(other) + 1)
            pieces[at:at] = other[start:start + 3 * length]
        elif form == 3:
            pieces.insert(at, random.choice(["#", '"', "{", "}", "/*", "*/", "//", "::", "\n", " ", "#endif\n", "\r\n", "é"]))
        elif form == 4:
            other = random.randrange(len(pieces) + 1)
            pieces[other:other] = pieces[at:at + length]
        else:
            pieces = pieces_of(random.choice(texts) + random.choice(["", "\n"])) + pieces if len(pieces) < 200 else pieces
    return "".join(pieces)
