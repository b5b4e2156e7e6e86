"""Import lines, and the identifiers that they declare."""
from .characters import size
from .decoration import decorated_name
from .faults import import_parse_error
from .tokens import tokens_of


def declare_imports(text, offset, declared):
    """Adds what an import line declares to a map from keys to lists of paths, or raises its fault."""
    tokens = [token for token in tokens_of(text) if token[0] != "white"]
    reader = ImportReader(tokens, size(text), offset)
    for key, path in reader.leaves():
        declared.setdefault(key, []).append(path)


class ImportReader:
    """Reads the tokens of one import line from the left."""

    def __init__(self, tokens, length, offset):
        self.tokens = tokens
        self.length = length
        self.offset = offset
        self.heads = []
        self.current = ""
        self.alias = None
        self.old_form = False
        self.found = []

    def fault(self, text, place):
        return import_parse_error(text, self.offset + place)

    def text_at(self, at):
        return self.tokens[at][1] if at < len(self.tokens) else None

    def is_name(self, at):
        return at < len(self.tokens) and self.tokens[at][0] == "name"

    def leaves(self):
        """All (key, path), in order."""
        at = self.head()
        while at < len(self.tokens):
            at = self.step(at)
        if self.heads and not (self.old_form and len(self.heads) == 1):
            raise self.fault("missing close brace", self.length)
        self.close_leaf()
        return self.found

    def head(self):
        if not self.tokens:
            raise self.fault("expected #import", self.length)
        for at, wanted in enumerate(("#", "import")):
            if self.text_at(at) != wanted:
                place = self.tokens[at][2] if at < len(self.tokens) else self.length
                raise self.fault("expected `#import`", place)
        return 2

    def step(self, at):
        kind, text, place = self.tokens[at]
        if kind == "name":
            return self.name(at)
        if text == "{":
            if not self.current.endswith("::"):
                raise self.fault("open brace must follow `::`", place)
            self.open_head(self.current)
        elif text in ",}":
            self.close_leaf()
            if text == "}":
                if not self.heads:
                    raise self.fault("close brace without open", place)
                self.heads.pop()
        elif text == ";":
            if at + 1 < len(self.tokens):
                raise self.fault("unexpected token after ';'", self.tokens[at + 1][2])
        else:
            raise self.fault("unexpected token", place)
        return at + 1

    def name(self, at):
        self.current += self.text_at(at)
        at += 1
        if self.text_at(at) == "as":
            if not self.is_name(at + 1):
                raise self.fault("expected identifier after `as`", self.tokens[at][2])
            self.alias = self.text_at(at + 1)
            at += 2
        if self.is_name(at):
            self.old_form = True
            self.open_head(self.current + "::")
        return at

    def open_head(self, text):
        self.heads.append(text)
        self.current, self.alias = "", None

    def close_leaf(self):
        if self.current:
            key = self.current.rpartition("::")[2] if self.alias is None else self.alias
            self.found.append((key, "".join(self.heads) + self.current))
        self.current, self.alias = "", None


def substitute(text, offset, declared, uses, ambiguity_allowed):
    """A text with its identifiers as their paths say; each use of a module is noted in `uses`.

    `uses` is a map from modules to (place of the first use, items)."""
    written, before = "", ""
    for kind, token, place in tokens_of(text):
        if kind != "name" or before in (".", "@"):
            written += token
        else:
            written += stands_for(token, offset + place, declared, uses, ambiguity_allowed)
        before = token
    return written


def stands_for(identifier, place, declared, uses, ambiguity_allowed):
    """What stands for one identifier."""
    first, _, rest = identifier.partition("::")
    paths = declared.get(first, [first])
    if len(paths) > 1 and not ambiguity_allowed:
        raise import_parse_error("Ambiguous import path for item", place)
    written = ""
    for path in paths:
        if rest:
            path += "::" + rest
        module, found, item = path.rpartition("::")
        if found:
            uses.setdefault(module, (place, []))[1].append(item)
            written += decorated_name(module, item)
        else:
            written += identifier if '"' in path else path
    return written
