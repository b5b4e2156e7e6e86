"""The registry of modules, and makes."""
from . import link, mini
from .build import INDEX_SHIFT, Build, link_shader
from .characters import size
from .decoration import MODULE_MARK, OVERRIDE_MARK
from .faults import Fault, fault_at, import_not_found
from .metadata import metadata_of
from .preprocess import preprocess

AUTO = "@binding(auto)"
MOST_MODULES = 2047


class Definition:
    """A registered module."""

    def __init__(self, name, path, data, index):
        self.name = name
        self.path = path
        self.cleaned = data.cleaned
        self.directives = data.directives
        self.imports = list(data.uses)
        self.index = index


class MissingImport(Exception):
    """An import of a build that isn't recorded."""


class Composer:
    """Registered modules in order, and the next binding."""

    def __init__(self, override_any):
        self.definitions = {}
        self.counter = 0
        self.override_any = override_any

    def read(self, text):
        """A source as it is read."""
        text = text.replace("\r\n", "\n").replace("\r", "\n")
        if not text.endswith("\n"):
            text += "\n"
        while AUTO in text:
            text = text.replace(AUTO, f"@binding({self.counter})", 1)
            self.counter += 1
        return text

    def reaching(self, target):
        """The names of a module and of all that reach it by imports, which stand behind it."""
        found = [target]
        for definition in self.definitions.values():
            if any(name in found for name in definition.imports):
                found.append(definition.name)
        return found

    def add(self, path, text):
        try:
            check_decorations(text)
            read = self.read(text)
            data = metadata_of(read, False)
            if data.name is None:
                raise Fault("Attempted to add a module with no #define_import_path")
        except Fault as fault:
            raise fault.within((path, text, 0))
        for name, (place, _) in data.uses.items():
            if name not in self.definitions or name in self.reaching(data.name):
                raise import_not_found(name, place).within((path, read, 0))
        gone = self.reaching(data.name)
        taken = [definition.index for name, definition in self.definitions.items() if name not in gone]
        index = min(set(range(1, len(taken) + 2)) - set(taken))
        if index > MOST_MODULES:
            raise Fault("too many modules").within((path, read, 0))
        for name in gone:
            self.definitions.pop(name, None)
        self.definitions[data.name] = Definition(data.name, path, data, index)

    def make(self, path, text, additional, definitions):
        try:
            check_decorations(text)
            read = self.read(text)
        except Fault as fault:
            raise fault.within((path, text, 0))
        try:
            data = metadata_of(read, True)
            definitions = {**definitions, **data.defines}
            preprocessed, uses = preprocess(data.cleaned, definitions)
            imports = [(name, place, items) for name, (place, items) in uses.items()]
            imports += [(name, 0, []) for name in additional]
            for name, place, _ in imports:
                if name not in self.definitions:
                    raise import_not_found(name, place)
            making = Making(self, definitions)
            for name, _, _ in imports:
                making.build(name)
        except MissingImport as missing:
            raise import_not_found(str(missing), 0).within((path, read, 0))
        except Fault as fault:
            raise fault.within((path, read, 0))
        top = Build(None, path, 0, preprocessed, [(name, items) for name, _, items in imports])
        top.finish(data.directives, making.builds, self.override_any)
        return making.shader(top)


class Making:
    """Builds of one make."""

    def __init__(self, composer, definitions):
        self.composer = composer
        self.definitions = definitions
        self.builds = {}

    def build(self, name):
        """Builds a module, and before it what it imports."""
        if name in self.builds:
            return
        definition = self.composer.definitions[name]
        try:
            preprocessed, uses = preprocess(definition.cleaned, self.definitions)
        except Fault as fault:
            raise fault.within((definition.path, "", 0))
        for below in uses:
            if below not in definition.imports:
                raise MissingImport(below)
            self.build(below)
        imports = [(below, items) for below, (_, items) in uses.items()]
        build = Build(name, definition.path, definition.index, preprocessed, imports)
        build.finish(definition.directives, self.builds, self.composer.override_any)
        self.builds[name] = build

    def shader(self, top):
        """Links a top build, sends calls down their chains, and validates."""
        module = link_shader(top, self.builds)
        try:
            if top.overriding:
                module = self.chained(module, top.overriding)
            mini.validate(module)
        except Fault as fault:
            raise self.laid(fault, top)
        return module

    def chained(self, module, overriding):
        try:
            for base, names in overriding.items():
                chain = [base, *names]
                for number, name in enumerate(names):
                    link.redirect(module, chain[number], name, names[:number])
            return link.ordered(module)
        except Fault as fault:
            raise Fault(f"invalid override :{fault.message}", [(0, "")], ["override error"])

    def laid(self, fault, top):
        """A fault of the last steps with its source: the module that its last place lies in, or the top."""
        if fault.notes:
            return fault.within(top.source(top.offset))
        fault.message = "failed to build a valid final module: " + fault.message
        index = fault.places[-1][0] // INDEX_SHIFT
        for build in self.builds.values():
            if build.index == index:
                return fault.within(build.source(build.offset))
        return fault.within(top.source(top.offset))


def check_decorations(text):
    """Refuses a text with a mark of a decoration."""
    places = [text.find(mark) for mark in (MODULE_MARK, OVERRIDE_MARK) if mark in text]
    if places:
        raise fault_at("source contains internal decoration string, results probably won't be what you expect. if you "
                       "have a legitimate reason to do this please file a report", size(text[:min(places)]))
