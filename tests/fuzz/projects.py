"""Random projects for `oil make`: modules over Mini that import and override one another, and a top shader."""
from model import version
from texts import DIRECTIVES

MODULES = ["a", "b", "c", "m", "a::b", "é", '"s"', "X", '"s::t"', "lib", "a::b::c", "true"]
FUNCTIONS = ["f", "g", "h", "run", "main", "x"]
CONSTANTS = ["N", "M", "k0", "k1", "f", "x"]
PARAMETERS = ["x", "y", "z", "N", "fn"]
DEFINITIONS = ["K", "L", "X", "Y"]
NUMBERS = ["0", "1", "2", "5", "007", "2147483647"]
NOISE = ["// virtual fn f(x)", "# virtual fn h(x)", "   ", "//", "#version 450", "#unknown X", "// a::f zz::N",
         "// @binding(auto)", "enable x", "requires y", "diagnostic(x", '// "', '// " "', "# f g N", "//x /* y", "\x0b",
         "# /*", "# */", '# "', '# "x"', "#virtual fn f(x)", "#K", "# {L}", "// é", "# 名 f"]
BAD = ["oops", "const N = x", "fn f(", "entry main", "entry main = nope()", "const = 1", "fn f(x) = y", "/* x */",
       "virtual", "override fn f(x) = 1", "entry main = 2147483648", "fn a::f(x) = 1", "entry a::x = 1", "const a::N = 1",
       "\tconst N = 1", "const N = 1;", "fn f(x,) = 1", "#version 300", "#define K 1", "#ifdef K", "#endif", "#else",
       "#import a::{", "#import zz", "x = zz::f", "@binding(auto)", "fn b::g() = 2", "entry f = 1 2", "#if Q == 1",
       "override fn b::f(x) = 1", "override fn a::N(x) = 1", "# override fn a::f(x) = 1", "fn x() = X_naga_oil_mod_X",
       "override\n fn a::f(x) = a::f(x) + 1", "virtual\nfn g() = 1", "fn fn(fn) = fn", "fn g() = a::#K", "#import a as K",
       "xoverride fn a::f(x) = 1", "xvirtual fn g() = 1", "override fn a::f() = 3", "virtual fn", "entry main =1+1 + N"]


def with_locals(random, constants):
    """What stands between the head of a function and its `=`, and the names that it gives to values."""
    if not version.LOCALS or random.random() < 0.7:
        return "", []
    names = random.sample(["t", "v", "w", "N", "x"], random.choice([1, 1, 2, 3]))
    values = [" + ".join(random.choice([*NUMBERS, *constants, *constants]) for _ in range(random.choice([1, 1, 2, 3])))
              for _ in names]
    space = " " if random.random() < 0.9 else random.choice(["", "  "])
    between = f",{space}".join(f"{name}{space}={space}{value}" for name, value in zip(names, values))
    return f" with {between}", names


class Module:
    """What a module or top of a project offers: its path, whether its functions are virtual, and their parameters."""

    def __init__(self, path):
        self.path = path
        self.functions = {}  # name to number of parameters
        self.constants = []
        self.variables = []  # those of the constants that are written as `var`
        self.virtuals = []
        self.overrides = False


class Writer:
    """Writes the text of one module over the modules before it."""

    def __init__(self, random, path, before, defined):
        self.random = random
        self.module = Module(path)
        self.before = before
        self.defined = defined  # names of definitions
        self.wrong = self.random.choice([0.0, 0.0, 0.0, 0.01, 0.1])  # the part of calls with a wrong number of arguments
        self.doubles = self.random.choice([0.05, 0.05, 0.05, 0.8])  # the part of constants of a name that is there
        self.functions = {}  # how they are written, to the number of parameters
        self.constants = []
        self.variables = []  # those of the constants that are written as `var`
        self.shown = set()  # names that imports declare
        self.prefixes = []  # how modules are written before `::`
        self.overridable = []  # how they are written, with the number of parameters
        self.lines = []

    def often(self, part):
        return self.random.random() < part

    def pick(self, items):
        return self.random.choice(items)

    def import_all(self):
        """Writes imports of some modules before, and notes how their items are written."""
        count = min(len(self.before), self.random.choice([0, 1, 1, 1, 2, 2, 3]))
        chosen = self.random.sample(self.before, count)
        if count and self.often(0.5):
            chosen = list(dict.fromkeys([*chosen, self.before[0]]))
        for module in chosen:
            names = [*module.functions, *module.constants]
            if names and self.often(0.5):
                self.import_items(module, names)
            else:
                self.import_whole(module)

    def import_whole(self, module):
        """Imports a module by its path, by another name, or by no line at all."""
        form = self.random.random()
        prefix = module.path
        if form < 0.3:
            prefix = self.pick(["z", "w1", "é2", "v", "u"]) if self.often(0.98) else "f"
            self.import_line(f"#import {module.path} as {prefix}")
        elif form < 0.8:
            self.import_line(f"#import {module.path}")
            if "::" in module.path and '"' not in module.path and self.often(0.5):
                prefix = module.path.rpartition("::")[2]
        self.prefixes.append(prefix)
        for name in [*module.functions, *module.constants]:
            self.offer(module, name, f"{prefix}::{name}")

    def import_items(self, module, names):
        """Imports some items, each under its own name or another one."""
        names = self.random.sample(names, self.random.randint(1, len(names)))
        form = self.random.random()
        if form < 0.25:
            self.import_line(f"#import {module.path} {', '.join(names)}")
            for name in names:
                self.offer(module, name, name)
            return
        leaves = []
        for name in names:
            shown = name + self.pick(["2", "_al", "3"]) if self.often(0.3) else name
            leaves.append(name if shown == name else f"{name} as {shown}")
            self.offer(module, name, shown)
        if form < 0.6:
            for leaf in leaves:
                self.import_line(f"#import {module.path}::{leaf}")
        else:
            between = self.pick([", ", ",", ",\n", ", // x\n  ", "\n,"])
            self.import_line(f"#import {module.path}::{{{between.join(leaves)}{self.pick(['', ',', chr(10)])}}}")

    def import_line(self, line):
        lines = (line + self.pick(["", "", "", ";", " ", " ;", " // x"])).split("\n")
        if self.often(0.07):
            lines = [f"#ifdef {self.pick(DEFINITIONS)}", *lines, "#else", *lines, "#endif"]
        self.lines += lines

    def offer(self, module, name, shown):
        self.shown.add(shown.partition("::")[0])
        if name in module.functions:
            self.functions[shown] = module.functions[name]
            if name in module.virtuals or self.often(0.05):
                self.overridable.append((shown, module.functions[name]))
        if name in module.constants:
            self.constants.append(shown)
            self.variables += [shown] if name in module.variables else []

    def space(self):
        return " " if self.often(0.9) else self.pick(["", "", "  ", "   "])

    def expression(self, parameters, depth):
        terms = [self.term(parameters, depth) for _ in range(self.pick([1, 1, 2, 2, 3]))]
        return (self.space() + "+" + self.space()).join(terms)

    def term(self, parameters, depth):
        form = self.random.random()
        if depth > 0 and form < 0.4 and self.functions:
            name = self.pick(list(self.functions))
            count = self.functions[name] + (self.pick([-1, 1]) if self.often(self.wrong) else 0)
            arguments = [self.expression(parameters, depth - 1) for _ in range(count)]
            return name + self.pick(["", "", " "]) + "(" + ("," + self.space()).join(arguments) + ")"
        if form < 0.6 and parameters:
            return self.pick(parameters)
        if form < 0.8 and self.constants:
            return self.pick(self.constants)
        if form < 0.87 and self.defined:
            name = self.pick(self.defined) if self.often(0.99) else "Q"
            return self.pick([f"#{name}", f"#{{{name}}}", f"# {{{name}}}"])
        return self.pick(NUMBERS)

    def body(self, parameters, depth):
        """Locals, now and then, and an expression."""
        initial = [name for name in self.constants if name not in self.variables]
        text, names = with_locals(self.random, initial)
        return f"{text} = {self.expression(parameters + names, depth)}"

    def parameters(self, count):
        return [self.pick(PARAMETERS) if self.often(0.02) else PARAMETERS[place] for place in range(count)]

    def is_used(self, name):
        """Whether a name means something in this module already, other than a constant beside a function."""
        return name in self.module.functions or name in self.module.constants or name in self.shown

    def constant(self):
        name = self.pick(CONSTANTS)
        if self.is_used(name) and not (name in self.module.constants and self.often(self.doubles)):
            return
        word = "var" if version.LOCALS and self.often(0.4) else "const"
        self.lines.append(f"{word} {name}{self.space()}={self.space()}{self.pick(NUMBERS)}")
        for holder in (self.module, self):
            holder.constants.append(name)
            holder.variables += [name] if word == "var" else []

    def function(self):
        """A function, a stub, or a virtual function."""
        name = self.pick(FUNCTIONS)
        if self.is_used(name) and self.often(0.98):
            return
        count = self.pick([0, 1, 1, 1, 2])
        parameters = self.parameters(count)
        prefix = ""
        if self.often(0.4):
            prefix = self.pick(["virtual "] * 9 + ["virtual  ", "virtual\t", "virtual\n"])
            self.module.virtuals.append(name)
        head = f"{prefix}fn {name}({(',' + self.space()).join(parameters)})"
        bodies = [self.body(parameters, 2) for _ in range(2)]
        lines = [head if self.often(0.07) else head + body for body in bodies]
        self.lines += self.conditioned(*lines)
        self.module.functions[name] = count
        self.functions[name] = count

    def override(self):
        if not self.overridable:
            return
        chosen = self.pick(self.overridable)
        if self.often(0.97):
            self.overridable.remove(chosen)
        shown, count = chosen
        self.module.overrides = True
        parameters = self.parameters(count if self.often(0.96) else self.pick([0, 1, 2]))
        own = f"{shown}({', '.join(parameters)})"
        body = own + " + " + self.pick(["10", "100", "#K"]) if self.often(0.7) else self.expression(parameters, 2)
        self.lines += self.conditioned(f"override fn {own} = {body}", "")

    def odd(self):
        """An item that is written with a module's name, an override that is no item, or a use that a value makes."""
        known = self.prefixes or [module.path for module in self.before]
        prefix = self.pick(known or MODULES)
        name = self.pick(["new", "f", "N"])
        form = self.random.randrange(11)
        if form == 0:
            self.lines.append(f"fn {prefix}::{name}(x) = {self.expression(['x'], 1)}")
            self.functions[f"{prefix}::{name}"] = 1
        elif form == 1:
            self.lines.append(f"const {prefix}::{name} = {self.pick(NUMBERS)}")
            self.constants.append(f"{prefix}::{name}")
        elif form == 2:
            self.lines.append(f"entry {prefix}::{name} = {self.expression([], 1)}")
        elif form == 3 and self.overridable:
            self.lines.append(f"# override fn {self.pick(self.overridable)[0]}(x) = 1")
        elif form == 4 and "X" in [module.path for module in self.before]:
            self.lines.append(self.pick(["fn t() = #X::f()", "const #X = 1", "#note #X::f", "fn t() = #K::f()", "# {X}::N f"]))
        elif form == 5 and self.before:
            module = self.pick(self.before)
            for shown in module.virtuals:
                self.overridable.append((f"{module.path}::{shown}", module.functions[shown]))
        elif form == 6:
            self.lines.append(f"const {self.pick(self.module.constants or CONSTANTS)} = {self.pick('012')}")
        elif form == 7:
            used = [*self.functions, *self.constants] or ["zz::f"]
            self.lines.append(self.pick(["#version 450 ", "enable ", "#note ", "// ", "#x /* é */ "]) + self.pick(used))
        elif form == 8 and self.overridable:
            words = self.pick(["override virtual fn", "virtual override fn", "override  fn", "override\n\n fn", "override fn fn"])
            self.lines += f"{words} {self.pick(self.overridable)[0]}(x) = 1".split("\n")
        elif form == 9:
            lines = [f"override fn {prefix}::{self.pick(FUNCTIONS)}(x) = 1", f"# override fn {self.pick(known or MODULES)}::f (x)"]
            self.lines += [self.pick(lines) for _ in range(2)]
        else:
            self.lines.append(f"fn {self.pick(FUNCTIONS)}{self.pick('234')}() = {self.expression([], 2)}")

    def entry(self):
        name = self.pick(FUNCTIONS + ["main", "main", "vs"])
        if self.is_used(name) and self.often(0.9):
            return
        self.lines.append(f"entry {name}{self.body([], 2)}")
        if name not in self.module.functions:
            self.module.functions[name] = 0

    def conditioned(self, line, other):
        """A line as it is, or in the arms of a condition."""
        form = self.random.random()
        if form < 0.8:
            return line.split("\n")
        tests = [f"#ifdef {self.pick(DEFINITIONS)}", f"#ifndef {self.pick(DEFINITIONS)}"]
        if self.defined:
            operator, value = self.pick(["==", "<=", "!=", ">"]), self.pick("012")
            tests.append(f"#if {self.pick(self.defined)} {operator} {value}")
        first, second = self.pick(tests), self.pick(tests)
        if form < 0.85:
            return [first, line, "#else", other, "#endif"]
        if form < 0.92:
            return [first, other, "#else " + second[1:], line, "#else", line, "#endif"]
        return [first, line, "#endif"]

    def write(self):
        """The text of the module."""
        if self.often(0.08):
            self.lines.append(self.pick(DIRECTIVES[:1] + DIRECTIVES[3:5] + DIRECTIVES[6:9]))
        if self.module.path is not None and self.often(0.99):
            self.lines.append("#define_import_path " + self.module.path)
        elif self.module.path is None and self.often(0.03):
            self.lines.append("#define_import_path " + self.pick(MODULES))
        elif self.module.path is None and self.often(0.2):
            self.lines.append(f"#define {self.pick(DEFINITIONS)} {self.pick(['', '1', '2', 'true'])}")
        self.import_all()
        makers = [self.constant, self.function, self.function, self.override, self.entry]
        makers = makers * 4 + [self.odd] * (4 if self.often(0.3) else 0)
        for _ in range(self.random.choice([1, 2, 3, 4, 5, 6, 7, 10, 14])):
            self.pick(makers)()
            if self.often(0.1):
                self.lines.append(self.pick([*NOISE, *(f"#note {name}" for name in [*self.functions, *self.constants])]))
            if self.often(0.012):
                self.lines += self.pick(BAD).split("\n")
        if self.module.path is None:
            self.lines.append(f"entry {'last' if self.is_used('main') else 'main'}{self.body([], 3)}")
        return self.ended()

    def ended(self):
        end = "\n" if self.often(0.9) else self.pick(["\r\n", "\r", "\r\r\n"])
        return end.join(self.lines) + (end if self.often(0.8) else "")


def broken(random, text):
    """A text with one small change."""
    lines = text.split("\n")
    at = random.randrange(len(lines))
    form = random.randrange(6)
    if form == 0:
        lines[at] = random.choice(BAD)
    elif form == 1:
        lines.insert(at, random.choice(lines))
    elif form == 2:
        del lines[at]
    elif form == 3:
        other = random.randrange(len(lines))
        lines[at], lines[other] = lines[other], lines[at]
    elif lines[at]:
        place = random.randrange(len(lines[at]))
        put = "" if form == 4 else random.choice(["(", ")", "+", " ", "#", '"', "x", "::", "/*", ",", "a::f", "\n"])
        lines[at] = lines[at][:place] + put + lines[at][place + (form == 4):]
    return "\n".join(lines)


def project(random):
    """The words and files of a random project."""
    definitions = {name: random.choice(["1", "2", "1", "2", "", "true", "5"]) for name in DEFINITIONS if random.random() < 0.5}
    numbers = [name for name, value in definitions.items() if value.isdecimal()]
    modules, files = [], {}
    for number in range(random.choice([0, 1, 1, 2, 2, 3, 3, 4, 5, 6])):
        unused = [path for path in MODULES if path not in [module.path for module in modules]]
        path = random.choice(unused if random.random() < 0.93 else MODULES)
        writer = Writer(random, path, modules, numbers)
        files[f"m{number}.txt"] = writer.write()
        modules = [module for module in modules if module.path != path] + [writer.module]
    files["top.txt"] = Writer(random, None, modules, numbers).write()
    if random.random() < 0.12:
        name = random.choice(list(files))
        files[name] = broken(random, files[name])
    words = words_of(random, files, modules, definitions)
    return words, {name: text.encode() for name, text in files.items()}


def words_of(random, files, modules, definitions):
    """The words of a make: mostly all files in order, with definitions and additional imports between."""
    names = [name for name in files if name != "top.txt"]
    if names and random.random() < 0.04:
        names.append(random.choice(names))
    if names and random.random() < 0.04:
        names.remove(random.choice(names))
    if random.random() < 0.01:
        names.insert(random.randrange(len(names) + 1), random.choice(["nothing.txt", "top.txt", ""]))
    others = ["+" + module.path for module in modules if random.random() < (0.7 if module.overrides else 0.15)]
    if random.random() < 0.02:
        others.append(random.choice(["+", "+zz", "+a", "+a=1", "=", "K=x", "K K=1", "K=+1", "K=1=2"]))
    others += [f"{name}={value}" for name, value in definitions.items()]
    if others and random.random() < 0.05:
        others.append(random.choice(others))
    if definitions and random.random() < 0.05:
        others.append(random.choice(list(definitions)) + "=3")
    words = ["top.txt", *names]
    random.shuffle(others)
    for other in others:
        words.insert(random.randrange(len(words) + 1), other)
    if version.OVERRIDE_ANY and random.random() < 0.3:
        words.insert(0 if random.random() < 0.97 else 1, "--override-any")
    return [random.choice(["pre", "mak", ""]) if random.random() < 0.003 else "make", *words]


class Chains:
    """A project of few functions that many modules override."""

    def __init__(self, random):
        self.random = random
        self.base = [f"f{number}" for number in range(random.choice([1, 1, 2, 3]))]
        self.names = ["b", "c", "d", "e", "g", "h"][:random.randint(1, 6)]
        self.imports = {}  # the modules that a module may call
        self.files = {}

    def expression(self, callees):
        """Terms that call some of the callees, each of one parameter."""
        terms = [self.random.choice(["x", "1", "x", "K", "20"])]
        for _ in range(self.random.choice([0, 1, 1, 2])):
            callee = self.random.choice(callees)
            terms.append(f"{callee}({self.random.choice(['x', '2', 'x + 1', f'{self.random.choice(callees)}(x)'])})")
        self.random.shuffle(terms)
        return " + ".join(terms).replace("K", self.random.choice(["3", "#K"]))

    def write_base(self):
        lines = ["#define_import_path a"]
        known = []
        for name in self.base:
            virtual = "virtual " if self.random.random() < 0.97 else ""
            lines.append(f"{virtual}fn {name}(x) = " + (self.expression(known) if known else "x + 1"))
            known.append(name)
            if self.random.random() < 0.4:
                lines.append(f"fn call_{name}(x) = {name}(x)" + self.random.choice(["", " + 7"]))
                known.append("call_" + name)
        self.imports["a"] = ["a::" + name for name in known]
        self.files["a.txt"] = lines

    def write_module(self, name):
        lines = [f"#define_import_path {name}", "#import a"]
        before = [other for other in self.imports if other != "a" and self.random.random() < 0.3]
        lines += [f"#import {other}" for other in before]
        callees = self.imports["a"] + [item for other in before for item in self.imports[other]]
        own = []
        for item in self.random.sample(self.base, self.random.randint(0, len(self.base))):
            if self.random.random() < 0.2:
                lines.append(f"fn help_{item}(x) = {self.expression(callees)}")
                own.append(f"help_{item}")
            words = "override" if self.random.random() < 0.98 else "override virtual"
            calls = [f"a::{item}"] * 3 + (callees if self.random.random() < 0.3 else [])
            lines.append(f"{words} fn a::{item}(x) = {self.expression(calls + own)}")
        if self.random.random() < 0.5:
            lines.append(f"virtual fn own(x) = {self.expression(callees)}")
            own.append("own")
        self.imports[name] = [f"{name}::{item}" for item in own]
        self.files[f"{name}.txt"] = lines

    def project(self):
        """The words and files."""
        self.write_base()
        for name in self.names:
            self.write_module(name)
        added = [name for name in self.names if self.random.random() < 0.8]
        self.random.shuffle(added)
        callees = [item for items in self.imports.values() for item in items]
        lines = [f"#import {name}" for name in self.imports if self.random.random() < 0.4]
        if self.random.random() < 0.2:
            lines.append(f"override fn a::{self.base[0]}(x) = a::{self.base[0]}(x) + 99")
        lines += [f"fn own(x) = {self.expression(callees)}", f"entry main = own(5) + {self.random.choice(callees)}(6)"]
        words = ["make", "top.txt", *self.files, *("+" + name for name in added), "K=4"]
        self.files["top.txt"] = lines
        return words, {name: ("\n".join(lines) + "\n").encode() for name, lines in self.files.items()}
