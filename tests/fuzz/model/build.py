"""Builds of modules, and of the top shader."""
import re

from . import form, mini
from .characters import WHITE, is_word, size
from .decoration import MODULE_MARK, OVERRIDE_MARK, decoded, decoration
from .faults import Fault, fault_at, import_not_found
from .form import own_name
from .lines import cover
from .link import Copies

INDEX_SHIFT = 2**21
GREATEST_TEXT = 2**21


def marked(text, keyword):
    """The functions behind a keyword in a text: (place of the keyword, place of the name, name)."""
    covered = cover(text)
    pattern = rf"{keyword}[{WHITE}]+fn[{WHITE}]+([^{WHITE}(]+)[{WHITE}]*\("
    return [(size(covered[:found.start()]), size(covered[:found.start(1)]), found[1])
            for found in re.finditer(pattern, covered)]


def with_put(text, place, piece):
    """A text with a piece in place of the bytes that stand there."""
    data = text.encode()
    return (data[:place] + piece.encode() + data[place + size(piece):]).decode()


def overridden(name):
    """The item, code and module of the function that a name overrides, or None."""
    item, mark, code = name.rpartition(MODULE_MARK)
    if not mark or not item or not code.endswith("X"):
        return None
    code = code[:-1]
    module = decoded(code) if code and all(map(is_word, code)) else None
    return None if module is None else (item, code, module)


class Build:
    """A module as it is built under definitions."""

    def __init__(self, name, path, index, preprocessed, imports):
        self.name = name
        self.path = path
        self.index = index
        self.decoration = decoration(name)
        self.preprocessed = preprocessed
        self.imports = imports  # (module, items)
        self.text = preprocessed
        self.offset = 0
        self.virtuals = set()
        self.overriding = {}  # names of functions to their replacements, with those of the imports
        self.own_overriding = []
        self.module = None
        self.header = None
        self.owned_values = []  # names of constants and globals
        self.owned_functions = []

    def source(self, offset):
        return (self.path, self.preprocessed, offset)

    def finish(self, directives, builds, override_any):
        """Does the steps of a build behind preprocessing, over the builds of the imports."""
        try:
            self.read_keywords(builds, override_any)
        except Fault as fault:
            raise fault.within(self.source(0))
        text = directives.text() + mini.write(link_headers(self.imports, builds))
        self.offset = size(text)
        try:
            if size(text + self.text) >= GREATEST_TEXT:
                raise Fault("shader text too large")
            parsed = mini.parse(text + self.text)
            form.check(parsed, self.decoration)
        except Fault as fault:
            raise fault.within(self.source(self.offset))
        self.own(parsed)

    def read_keywords(self, builds, override_any):
        """Reads virtual and overriding functions, and gathers what overrides what."""
        for place, _, name in marked(self.text, "virtual"):
            self.virtuals.add(name)
            self.text = with_put(self.text, place, " " * len("virtual"))
        fault, own = None, []
        for place, name_place, name in marked(self.text, "override"):
            parts = overridden(name)
            if parts:
                fault = self.override_fault(parts, name_place, builds, override_any) or fault
                self.text = with_put(self.text, place, " " * len("override"))
                own.append((name, name_place, parts))
        if fault:
            raise fault
        for name, place, (item, code, _) in own:
            self.text = with_put(self.text, place + size(item), OVERRIDE_MARK)
        self.gather([(name, item + OVERRIDE_MARK + code + "X" + self.decoration) for name, _, (item, code, _) in own],
                    builds)

    def override_fault(self, parts, name_place, builds, override_any):
        item, _, module = parts
        if module not in [name for name, _ in self.imports]:
            return import_not_found(module, name_place + size(item + MODULE_MARK))
        if not override_any and item not in builds[module].virtuals:
            return fault_at(f"override is invalid as `{item}` is not virtual "
                            "(this error can be disabled with feature 'override_any')", name_place)
        return None

    def gather(self, own, builds):
        pairs = [(base, name) for module, _ in self.imports
                 for base, names in builds[module].overriding.items() for name in names]
        for base, name in pairs + own:
            names = self.overriding.setdefault(base, [])
            if name not in names:
                names.append(name)
        self.own_overriding = [name for _, name in own]

    def own(self, parsed):
        """Gives own items the decoration, and makes the module and its header."""
        names = [own_name(function.name, self.decoration) for function in parsed.functions]
        owned = [function for function in parsed.functions if MODULE_MARK not in function.name]
        demoted = []
        if self.name is not None:
            demoted = [entry for entry in parsed.entries if entry.name + self.decoration not in names]
        for function in owned + demoted:
            function.name += self.decoration
        self.owned_functions = [function.name for function in owned + demoted]
        for items in (parsed.constants, parsed.globals):
            self.owned_values += [own_name(name, self.decoration) for name, _ in items if MODULE_MARK not in name]
            items[:] = [(own_name(name, self.decoration), value) for name, value in items]
        self.make(parsed, owned, demoted)

    def make(self, parsed, owned, demoted):
        module, header = Copies(), Copies()
        for copies in (module, header):
            self.copy_values(copies, parsed, self.owned_values)
        for function in parsed.functions + demoted:
            module.copy_function(function, parsed, 0)
        for function in owned + demoted:
            header.copy_function(function.changed(locals=[], terms=None), parsed, 0)
        if self.name is None:
            for entry in parsed.entries:
                module.copy_entry(entry, parsed, 0)
        self.module, self.header = module.module, header.module

    def copy_values(self, copies, source, wanted):
        """Copies own constants and globals of wanted names, or all for None."""
        for items, copy in ((source.constants, copies.copy_constant), (source.globals, copies.copy_global)):
            for item in items:
                if item[0] in self.owned_values and (wanted is None or item[0] in wanted):
                    copy(item)


class Linking:
    """Puts what imports ask for into one module, each module's imports before its own items."""

    def __init__(self, builds, headers):
        self.copies = Copies()
        self.builds = builds
        self.headers = headers
        self.entered = set()

    def link_import(self, name, items):
        build = self.builds[name]
        if name not in self.entered:
            self.entered.add(name)
            for below in build.imports:
                self.link_import(*below)
        self.link_items(build, [item + build.decoration for item in items])

    def link_items(self, build, wanted):
        """Copies own items of a build: the wanted ones, or all for None; and all its overriding functions."""
        source = build.header if self.headers else build.module
        shift = build.index * INDEX_SHIFT
        build.copy_values(self.copies, source, wanted)
        for function in source.functions:
            asked = wanted is None or function.name in wanted or function.name in build.own_overriding
            if function.name in build.owned_functions and asked:
                self.copies.copy_function_if_new(function, source, shift)


def link_headers(imports, builds):
    """The header of a text with these imports."""
    linking = Linking(builds, True)
    for name, items in imports:
        linking.link_import(name, items)
    return linking.copies.module


def link_shader(top, builds):
    """The whole shader of a top build."""
    linking = Linking(builds, False)
    for name, items in top.imports:
        linking.link_import(name, items)
    linking.link_items(top, None)
    for entry in top.module.entries:
        linking.copies.copy_entry(entry, top.module, 0)
    return linking.copies.module
