"""Random projects for `oil make` that show in which order items are linked: many constants and calls, few of them asked for."""
from model import version
from projects import with_locals


class Orders:
    """A project of modules that import items of those before them."""

    def __init__(self, random):
        self.random = random
        self.items = []  # (module, name, number of parameters or None of a constant)
        self.names = []
        self.files = {}
        self.doubled = random.random() < 0.15  # constants of one name
        self.wrong = random.random() < 0.2  # calls with a wrong number of arguments
        self.virtual = random.random() < 0.3

    def often(self, part):
        return self.random.random() < part

    def term(self, parameters, constants, functions, depth):
        form = self.random.random()
        if functions and depth > 0 and form < 0.5:
            name, count = self.random.choice(functions)
            if self.wrong and self.often(0.05):
                count += 1
            arguments = [self.terms(parameters, constants, functions, depth - 1) for _ in range(count)]
            return f"{name}({', '.join(arguments)})"
        if constants and form < 0.85:
            return self.random.choice(constants)
        return self.random.choice([*parameters, "1", "2"])

    def terms(self, parameters, constants, functions, depth):
        count = self.random.choice([1, 1, 2, 3])
        return " + ".join(self.term(parameters, constants, functions, depth) for _ in range(count))

    def imports(self):
        """Import lines of some items before, and how these are written."""
        lines, constants, functions = [], [], []
        asked = self.random.sample(self.items, min(len(self.items), self.random.choice([1, 2, 3, 5])))
        for module, name, count in asked:
            written = f"{module}::{name}"
            if self.often(0.3):
                written = f"{name}_{module}"
                lines.append(f"#import {module}::{name} as {written}")
            if self.often(0.2):
                lines.append(f"#note {written}")
            elif count is None:
                constants.append(written)
            else:
                functions.append((written, count))
        return lines, constants, functions

    def module(self, name):
        """The lines of a module, or of the top for None."""
        lines, constants, functions = self.imports()
        own = []
        kinds = ["const"] * self.random.choice([0, 2, 4, 6]) + ["fn"] * self.random.choice([0, 1, 3, 6])
        if self.doubled:
            self.random.shuffle(kinds)
        for number, kind in enumerate(kinds):
            if kind == "const":
                word = "var" if version.LOCALS and self.often(0.4) else "const"
                shown = f"N{self.random.choice([number, 0]) if self.doubled else number}"
                own.append(f"{word} {shown} = {self.random.randint(0, 2 if self.doubled else 9)}")
                constants.append(shown)
                self.items += [(name, shown, None)] if name else []
            else:
                own.append(self.function(name, f"f{number}", constants, functions))
        for number in range(self.random.choice([0, 0, 1, 2]) if name else 2):
            own.append(f"entry e{number} = {self.terms([], constants, functions, 3)}")
            self.items += [(name, f"e{number}", 0)] if name else []
        return lines + own

    def function(self, module, name, constants, functions):
        """The line of a function, or of a stub."""
        parameters = ["x", "y"][:self.random.choice([0, 1, 1, 2])]
        word = "virtual fn" if self.virtual and self.often(0.3) else "fn"
        head = f"{word} {name}({', '.join(parameters)})"
        text, names = with_locals(self.random, [])
        body = f"{text} = {self.terms(parameters + names, constants, functions, 3)}"
        line = head + body if self.often(0.95) else head
        functions.append((name, len(parameters)))
        self.items += [(module, name, len(parameters))] if module else []
        return line

    def override(self):
        """A module that overrides a function, so that all are put in order."""
        functions = [item for item in self.items if item[2] is not None and item[1].startswith("f")]
        module, name, count = self.random.choice(functions or [("m0", "f0", 1)])
        parameters = ", ".join(["x", "y", "z"][:count])
        return [f"override fn {module}::{name}({parameters}) = {module}::{name}({parameters}) + 5"]

    def project(self):
        """The words and files."""
        for number in range(self.random.choice([1, 2, 3, 4])):
            name = f"m{number}"
            self.names.append(name)
            self.files[f"{name}.txt"] = [f"#define_import_path {name}", *self.module(name)]
        words = [*self.files]
        if self.virtual:
            self.files["o.txt"] = ["#define_import_path o", *self.override()]
            words += ["o.txt", "+o"]
        elif self.often(0.2):
            words.insert(self.random.randint(1, len(words)), self.random.choice(words))
        self.files["top.txt"] = self.module(None)
        files = {name: ("\n".join(lines) + "\n").encode() for name, lines in self.files.items()}
        return ["make", "top.txt", *words, *(["+m0"] if self.often(0.2) else [])], files
