"""Mini, the example front end: reading, writing and validating modules of one item a line.

A term is ("int", value), ("parameter", place), ("local", place), ("global", place), ("constant", place) or
("call", place, arguments), where a place is one in the list of its kind and an argument is a list of terms. A function
without a body is a stub."""
import re

from . import version
from .characters import WHITE, size
from .faults import Fault

SKIPPED = ("#", "//", "enable ", "requires ", "diagnostic(")
GREATEST = 2**31 - 1
TOKEN = re.compile(r"( *)([A-Za-z_][A-Za-z0-9_]*|[0-9]+|.)", re.DOTALL)


class Function:
    """A function or an entry point: its name, parameters, locals as (name, terms), terms (None of a stub) and where its
    line begins."""

    def __init__(self, name, parameters, local_values, terms, start):
        self.name = name
        self.parameters = parameters
        self.locals = local_values
        self.terms = terms
        self.start = start

    def changed(self, **fields):
        copy = Function(self.name, self.parameters, self.locals, self.terms, self.start)
        copy.__dict__.update(fields)
        return copy


class Module:
    """Constants and globals as (name, value), functions and entry points."""

    def __init__(self):
        self.constants = []
        self.globals = []
        self.functions = []
        self.entries = []


class NotUnderstood(Exception):
    """A line that is no item."""


class LineReader:
    """Reads the tokens of one line from the left."""

    def __init__(self, text):
        found = TOKEN.findall(text.rstrip(" "))
        self.tokens = [token for _, token in found]
        self.spaced = [space != "" for space, _ in found]
        self.at = 0

    def peek(self):
        return self.tokens[self.at] if self.at < len(self.tokens) else ""

    def take(self):
        self.at += 1
        return self.tokens[self.at - 1] if self.at <= len(self.tokens) else ""

    def expect(self, token):
        if self.take() != token:
            raise NotUnderstood()

    def end(self):
        if self.at < len(self.tokens):
            raise NotUnderstood()

    def name(self):
        token = self.take()
        if not re.match("[A-Za-z_]", token):
            raise NotUnderstood()
        return token

    def number(self):
        token = self.take()
        if not re.match("[0-9]", token) or int(token) > GREATEST:
            raise NotUnderstood()
        return int(token)

    def list_of(self, item):
        """What stands in braces, with commas between."""
        self.expect("(")
        items = []
        if self.peek() != ")":
            items.append(item())
            while self.peek() == ",":
                self.take()
                items.append(item())
        self.expect(")")
        return items

    def terms(self, term=None):
        terms = [(term or self.term)()]
        while self.peek() == "+":
            self.take()
            terms.append((term or self.term)())
        return terms

    def locals(self):
        """The locals behind `with`, where it stands here."""
        if not version.LOCALS or self.peek() != "with" or not all(self.spaced[self.at:self.at + 2]):
            return []
        found = []
        while not found or self.peek() == ",":
            self.take()
            name = self.name()
            self.expect("=")
            found.append((name, self.terms(self.simple_term)))
        return found

    def simple_term(self):
        """A number or the name of a constant."""
        return ("int", self.number()) if re.match("[0-9]", self.peek()) else ("name", self.name())

    def term(self):
        if re.match("[0-9]", self.peek()):
            return ("int", self.number())
        name = self.name()
        if self.peek() == "(":
            return ("call", name, self.list_of(self.terms))
        return ("name", name)


def item_of(line):
    """The item that a line says, with names: (keyword, name, ..)."""
    text = line.lstrip(" ")
    for keyword in ("const", "var", "fn", "entry") if version.LOCALS else ("const", "fn", "entry"):
        if text.startswith(keyword + " "):
            reader = LineReader(text[len(keyword):])
            name = reader.name()
            item = (keyword, name, *item_behind(keyword, reader))
            reader.end()
            return item
    raise NotUnderstood()


def item_behind(keyword, reader):
    if keyword in ("const", "var"):
        reader.expect("=")
        return (reader.number(),)
    parameters = reader.list_of(reader.name) if keyword == "fn" else []
    if keyword == "fn" and reader.peek() == "":
        return parameters, [], None
    local_values = reader.locals()
    reader.expect("=")
    return parameters, local_values, reader.terms()


def parse(text):
    """The module that a text says, or the fault of its first faulty line."""
    module, start = Module(), 0
    for line in text.split("\n"):
        shown = line.lstrip(WHITE)
        if shown and not shown.startswith(SKIPPED):
            try:
                read_line(line, start, module)
            except NotUnderstood:
                raise Fault("line not understood", [(start, "")])
        start += size(line) + 1
    return module


def read_line(line, start, module):
    keyword, name, *rest = item_of(line)
    if keyword in ("const", "var"):
        items = module.constants if keyword == "const" else module.globals
        items.append((name, rest[0]))
        return
    parameters, local_values, terms = rest
    names = Names(parameters, [local for local, _ in local_values], module, start)
    local_values = [(local, [names.constant_or_int(term) for term in value]) for local, value in local_values]
    if terms is not None:
        terms = [names.resolved(term) for term in terms]
    items = module.functions if keyword == "fn" else module.entries
    items.append(Function(name, parameters, local_values, terms, start))


class Names:
    """What names mean in a line."""

    def __init__(self, parameters, local_names, module, start):
        self.functions = [function.name for function in module.functions]
        self.kinds = [("parameter", parameters), ("local", local_names),
                      ("global", [name for name, _ in module.globals]),
                      ("constant", [name for name, _ in module.constants])]
        self.start = start

    def last_place(self, names, name):
        """The place of the last of several names."""
        for place in range(len(names) - 1, -1, -1):
            if names[place] == name:
                return place
        raise Fault(f"unknown name {name}", [(self.start, "")])

    def constant_or_int(self, term):
        return term if term[0] == "int" else ("constant", self.last_place(self.kinds[-1][1], term[1]))

    def resolved(self, term):
        """A term with places instead of names."""
        if term[0] == "int":
            return term
        if term[0] == "call":
            callee = self.last_place(self.functions, term[1])
            return ("call", callee, [[self.resolved(part) for part in argument] for argument in term[2]])
        for kind, names in self.kinds[:-1]:
            if term[1] in names:
                return (kind, self.last_place(names, term[1]))
        return self.constant_or_int(term)


def reached(function):
    """What a function names, in the order of its locals and statements: ("function", place, term) for a call,
    ("constant", place), ("global", place)."""
    for _, terms in function.locals:
        for term in terms:
            yield from own_constant([term])
    if function.terms is not None:
        yield from reached_by_statements(function.terms)
        yield from own_constant(function.terms)


def reached_by_statements(terms):
    """The same of terms, without what the last value names by itself."""
    for number, term in enumerate(terms):
        if term[0] == "global":
            yield term
        if term[0] == "call":
            for argument in term[2]:
                yield from reached_by_statements(argument)
            yield ("function", term[1], term)
            for argument in term[2]:
                yield from own_constant(argument)
        if number == 1:
            yield from own_constant(terms[:1])
        if number >= 1:
            yield from own_constant([term])


def own_constant(terms):
    """The constant that a value is."""
    if len(terms) == 1 and terms[0][0] == "constant":
        yield terms[0]


def validate(module):
    """Raises the fault of the first call with a wrong number of arguments."""
    for caller in module.functions + module.entries:
        for kind, place, *term in reached(caller):
            if kind == "function":
                callee = module.functions[place]
                if len(term[0][2]) != len(callee.parameters):
                    raise Fault("wrong number of arguments", [(caller.start, f"call of {callee.name}")])


def write(module):
    """The text of a module; only of one that a text says."""
    if not is_said(module):
        raise Fault("not in Mini")
    lines = [f"const {name} = {value}" for name, value in module.constants]
    lines += [f"var {name} = {value}" for name, value in module.globals]
    for function in module.functions:
        head = f"fn {function.name}({', '.join(function.parameters)})"
        lines.append(head if function.terms is None else head + body_text(function, module))
    lines += [f"entry {entry.name}" + body_text(entry, module) for entry in module.entries]
    return "".join(line + "\n" for line in lines)


def body_text(function, module):
    """What stands behind the head of a line: its locals and its expression."""
    values = [f"{name} = {written(terms, function, module)}" for name, terms in function.locals]
    return (f" with {', '.join(values)}" if values else "") + f" = {written(function.terms, function, module)}"


def written(terms, function, module):
    return " + ".join(written_term(term, function, module) for term in terms)


def written_term(term, function, module):
    kind, place = term[:2]
    if kind == "int":
        return str(place)
    if kind == "call":
        arguments = ", ".join(written(argument, function, module) for argument in term[2])
        return f"{module.functions[place].name}({arguments})"
    if kind == "parameter":
        return function.parameters[place]
    items = {"local": function.locals, "global": module.globals, "constant": module.constants}[kind]
    return items[place][0]


def is_said(module):
    """Whether some order of the lines that keeps the order of each kind gives each name its item.

    Each line is put behind as few constants and globals as can be."""
    places, last = [], (0, 0)
    for function in module.functions:
        last = behind(function, module, last)
        if last is None:
            return False
        places.append(last)
    last = (0, 0)
    for entry in module.entries:
        called = [places[place] for kind, place, *_ in reached(entry) if kind == "function"]
        last = behind(entry, module, tuple(map(max, zip(last, *called))))
        if last is None:
            return False
    return True


def behind(function, module, least):
    """Behind how many constants and globals a line has to stand, at least as many as given; or None."""
    constants, variables = ([name for name, _ in items] for items in (module.constants, module.globals))
    named = [(kind, place) for kind, place, *_ in reached(function) if kind != "function"]
    last = tuple(max([count, *(place + 1 for kind, place in named if kind == wanted)])
                 for count, wanted in zip(least, ("constant", "global")))
    inner = function.parameters + [name for name, _ in function.locals]
    for kind, place in named:
        if kind == "global" and variables[place] in variables[place + 1:last[1]] + inner:
            return None
        if kind == "constant" and constants[place] in constants[place + 1:last[0]]:
            return None
    for kind, place in bare_terms(function.terms or []):
        if kind == "constant" and constants[place] in variables[:last[1]] + inner:
            return None
        if kind == "local" and function.locals[place][0] in function.parameters:
            return None
    return last


def bare_terms(terms):
    """The terms that are no calls, with those of arguments."""
    for term in terms:
        if term[0] == "call":
            for argument in term[2]:
                yield from bare_terms(argument)
        else:
            yield term
