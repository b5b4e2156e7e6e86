"""Copies of items of several modules in one, and calls sent down chains of overriding functions."""
from .faults import Fault
from .mini import Module, reached


class Copies:
    """A module made of copies. Functions are known by their names."""

    def __init__(self):
        self.module = Module()
        self.places = {}

    def copy_constant(self, constant):
        if constant not in self.module.constants:
            self.module.constants.append(constant)

    def copy_global(self, variable):
        if variable not in self.module.globals:
            self.module.globals.append(variable)

    def copy_function(self, function, source, shift):
        """Copies a function of a module behind what it reaches, and answers its place."""
        copy = self.copy_body(function, source, shift)
        self.module.functions.append(copy)
        self.places[function.name] = len(self.module.functions) - 1

    def copy_function_if_new(self, function, source, shift):
        if function.name not in self.places:
            self.copy_function(function, source, shift)

    def copy_entry(self, entry, source, shift):
        self.module.entries.append(self.copy_body(entry, source, shift))

    def copy_body(self, function, source, shift):
        """A function with its terms naming copies; what it reaches is copied first."""
        if function.terms is None:
            return function.changed(start=function.start + shift)
        for kind, place, *_ in reached(function):
            if kind == "constant":
                self.copy_constant(source.constants[place])
            elif kind == "global":
                self.copy_global(source.globals[place])
            else:
                self.copy_function_if_new(source.functions[place], source, shift)
        local_values = [(name, [self.renamed(term, source) for term in terms]) for name, terms in function.locals]
        terms = [self.renamed(term, source) for term in function.terms]
        return function.changed(locals=local_values, terms=terms, start=function.start + shift)

    def renamed(self, term, source):
        """A term with places of copies."""
        if term[0] == "constant":
            return ("constant", self.module.constants.index(source.constants[term[1]]))
        if term[0] == "global":
            return ("global", self.module.globals.index(source.globals[term[1]]))
        if term[0] == "call":
            callee = self.places[source.functions[term[1]].name]
            return ("call", callee, [[self.renamed(part, source) for part in argument] for argument in term[2]])
        return term


def redirected(term, source, target):
    """A term with calls sent elsewhere."""
    if term[0] != "call":
        return term
    arguments = [[redirected(part, source, target) for part in argument] for argument in term[2]]
    return ("call", target if term[1] == source else term[1], arguments)


def redirect(module, original, replacement, omitted):
    """Sends calls of the original to the replacement, but for those of the replacement and the omitted."""
    names = [function.name for function in module.functions]
    for name in (original, replacement):
        if name not in names:
            raise Fault(f"can't find function {name} for redirection")
    source, target = names.index(original), names.index(replacement)
    if len(module.functions[source].parameters) != len(module.functions[target].parameters):
        raise Fault(f"{replacement} cannot override {original} due to argument mismatch")
    for items in (module.functions, module.entries):
        for place, function in enumerate(items):
            kept = items is module.functions and function.name in [replacement, *omitted]
            if function.terms is not None and not kept:
                terms = [redirected(term, source, target) for term in function.terms]
                items[place] = function.changed(terms=terms)


def ordered(module):
    """The module with its functions by level, then by place, and without the constants that nothing reaches."""
    levels = levels_of(module)
    missing = [function.name for place, function in enumerate(module.functions) if levels[place] is None]
    if missing:
        raise Fault(f"circular reference; can't find an order for : {', '.join(missing)}")
    copies = Copies()
    for place in sorted(range(len(levels)), key=lambda place: levels[place]):
        copies.copy_function(module.functions[place], module, 0)
    for entry in module.entries:
        copies.copy_entry(entry, module, 0)
    return copies.module


def levels_of(module):
    """The level of each function: 0 without calls, else one above its callees; None where calls go in a circle."""
    levels = [None] * len(module.functions)
    callees = [{place for kind, place, *_ in reached(function) if kind == "function"}
               for function in module.functions]
    for level in range(len(levels)):
        ready = [place for place, called in enumerate(callees)
                 if levels[place] is None and all(levels[callee] is not None for callee in called)]
        for place in ready:
            levels[place] = level
    return levels
