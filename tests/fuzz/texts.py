"""Random texts for `oil pre`: lines of all kinds, made of few names so that these meet."""

NAMES = ["A", "B", "K", "XX", "N|M", "d_1", "é", "A٣", "true", "x-y", "FOO", "Ⓐ", "version", "|", "e\u0301"]
MODULES = ["a", "b", "a::b", "lib", '"s"', '"q r/x.w"', '"s::t"', "é", "名", "a::b::c"]
ITEMS = ["f", "g", "x", "N", "é1", '"i"', "名", "f٣", "℘", "ª", "as", "import"]
SPACES = [" "] * 12 + ["  ", "\t", "\u3000", "\xa0", "\u2003", "\x0b", "\x0c", "\x85", "\u2028"]
NO_SPACES = ["\x1c", "\u200b", "\ufeff", "\u180e"]
MARKS = ["//", "/*", "*/", '"', "/", "*", "/*/", "*//", "//*"]
SIGNS = [".", "@", ",", ";", ":", "::", ":::", "{", "}", "(", ")", "+", "=", "_", "-", "#", "1", "0x1f", "1.5", "$", "·",
         "²", "＿", "_x", "🦶", "゛", "\\", "'", "X_naga_oil_", "\r"]
GOOD_VALUES = ["0", "1", "2", "-1", "7", "2147483647", "2147483648", "-2147483648", "4294967295", "true", "false", "007",
               "-0", "", ""]
VALUES = ["0", "1", "-1", "7", "2147483647", "2147483648", "-2147483648", "-2147483649", "4294967295", "4294967296",
          "true", "false", "x1", "-", "007", "--1", "-0", "|", "1|", "٣", "é", "True", "99999999999999999999"]
OPERATORS = ["==", "!=", "<", "<=", ">", ">=", "=", "!!", "=!<>", "", "=>", "<>"]
DIRECTIVES = ["enable f16;", "enable  ;", "enable ;", "enable a, b ,a;", "requires x;", "requires ,,;", "requires\ty , z; r",
              "diagnostic(off, x);", "diagnostic ( warn , a.b ) ;", "diagnostic(of, x);", "diagnostic( , x);",
              "diagnostic(off,);", "diagnostic(off, );", "diagnostic(off x);", "enabled", "enable f16", "enable;",
              "requires", "diagnostic", "diagnostic(info, x) ;", "diagnostic(error, x\ty);", "diagnostic(off), x);",
              "diagnosticx(off, y);", "enable\u3000a;", "requires a;;b", "enable a//b;", "enable /*c*/ d;"]


CODES = ["", "ME", "MI", "ME5DUYQ", "MEXA", "1", "M", "MF", "76", "YOUQ", "MEX", "X", "EJZSE"]
DECORATED = ["X_naga_oil_mod_X", "X_naga_oil_mod_X", "X_naga_oil_vrt_X", "X_naga_oil_mod_", "naga_oil_mod_X"]


def decorated(random):
    """A name with marks of modules and of overrides, whole or broken."""
    name = random.choice(["f", "f", "", "é", "g_", "f-", "_"])
    for _ in range(random.choice([1, 1, 2, 3])):
        name += random.choice(DECORATED) + random.choice(CODES) + random.choice(["X", "X", "X", "", "XYZ", "Xé"])
    return name


class Texts:
    """Random pieces of text, from one source of random numbers."""

    def __init__(self, random):
        self.random = random
        self.defined = []

    def often(self, part):
        return self.random.random() < part

    def pick(self, *lists):
        return self.random.choice(self.random.choice(lists))

    def space(self, least=0):
        """White space, mostly one space; now and then none, where none may stand, or what only looks like it."""
        if self.often(0.01):
            return self.pick(NO_SPACES)
        if least == 0 and self.often(0.5):
            return ""
        return "".join(self.pick(SPACES) for _ in range(1 if self.often(0.85) else 2))

    def identifier(self):
        """An item, a module, or an item of a module."""
        form = self.random.random()
        if form < 0.45:
            return self.pick(ITEMS, ["f", "g", "x"])
        if form < 0.6:
            return self.pick(MODULES)
        if form < 0.65:
            return self.pick(MODULES) + "::" + self.pick(["", "::x", "1", "_", "f::"])
        return self.pick(MODULES) + "::" + self.pick(ITEMS)

    def hash_name(self):
        name = self.pick(NAMES, self.defined or NAMES)
        if self.often(0.4):
            return "#" + self.space() + "{" + ("" if self.often(0.9) else " ") + name + "}"
        return "#" + self.space() + name

    def piece(self):
        form = self.random.random()
        if form < 0.4:
            return self.identifier()
        if form < 0.55:
            return self.hash_name()
        if form < 0.63:
            return self.pick(MARKS)
        if form < 0.634:
            return "/*" + self.pick(["é", "/* 名 */", "🦶 f", "#A", '"']) + "*/"
        if form < 0.66:
            return self.pick(["fn", "virtual", "override", "let", "as", "import", "else", "@binding(auto)"])
        return self.pick(SIGNS)

    def soup(self, most=9):
        """A line of any pieces."""
        pieces = []
        for _ in range(self.random.randint(0, most)):
            pieces += [self.piece(), self.space()]
        return self.space() + "".join(pieces)

    def hash(self, word):
        return self.space() + "#" + ("" if self.often(0.8) else self.space()) + word

    def condition(self):
        form = self.random.random()
        prefix = "else" + self.space(1) if self.often(0.25) else ""
        if self.often(0.02):
            return self.hash(prefix + self.pick(["if", "ifdef", "elseif A", "iff A", "ifdefA", "else if X", "elsewhere"]))
        if form < 0.45:
            return self.hash(prefix + self.pick(["ifdef", "ifndef"]) + self.space(1) + self.pick(NAMES))
        name = self.pick(self.defined) if self.defined and self.often(0.93) else self.pick(NAMES)
        name = decorated(self.random) if self.often(0.08) else name
        if not self.defined and self.often(0.8):
            return self.hash(prefix + "ifdef " + name)
        if self.often(0.06):
            return self.hash(prefix + "if" + self.space(1) + name)
        operator, value = self.pick(OPERATORS, OPERATORS[:6]), self.pick(VALUES, ["0", "1", "true"])
        return self.hash(prefix + "if" + self.space(1) + name + self.space() + operator + self.space() + value)

    def define(self):
        value = "" if self.often(0.3) else self.space(1) + self.pick(GOOD_VALUES if self.often(0.9) else VALUES)
        name = self.pick(NAMES)
        self.defined.append(name)
        return self.hash("define" + self.space(1) + name + value)

    def import_path(self):
        return self.hash("define_import_path" + self.space(1) + self.pick(MODULES))

    def leaf(self, depth):
        """A leaf of an import, or a head with leaves in braces."""
        form = self.random.random()
        end = self.space() if self.often(0.85) else "\n" + self.space()
        if depth > 0 and form < 0.3:
            head = self.pick(MODULES, ITEMS) + ("::" if self.often(0.97) else self.pick(["", ":", ":::"]))
            leaves = [self.leaf(depth - 1) for _ in range(self.random.randint(0, 3))]
            close = "}" if self.often(0.95) else self.pick(["", "}}"])
            return head + "{" + end + ",".join(leaves) + self.pick(["", "", ","]) + close
        name = self.identifier()
        if form > 0.8:
            name += " as" + (" " + self.pick(ITEMS, MODULES) if self.often(0.95) else "")
        return name + end

    def import_line(self):
        """An import, over one line or more."""
        form = self.random.random()
        word = self.hash("import") + self.space(1)
        end = self.pick(["", "", "", ";", " ;", "; x", " //x", "/*"]) if self.often(0.3) else ""
        if form < 0.1:
            return self.hash("import") + self.pick(["", "x y", ":a b", "\t", " ", "/**/a::f"])
        if form < 0.25:
            items = ", ".join(self.pick(ITEMS) for _ in range(self.random.randint(1, 3)))
            return word + self.pick(MODULES) + " " + items + end
        if form < 0.3:
            return word + self.soup(5) + end
        return word + ",".join(self.leaf(2) for _ in range(1 if self.often(0.85) else 2)) + end

    def ambiguous(self):
        """Imports of one key twice, and a line that uses it behind a comment."""
        key = self.pick(["f", "g", "é1"])
        comment = self.pick(["/* é */", "/* 名 /* */", "#A ", "// ", '"é" ', "/**/", "", "x."])
        text = self.pick([f"#import a::{{{key}, b::{key}}}", f"#import a::{key}\n#import b x as {key}", f"#import a {key}, {key}"])
        return text + "\n" + self.soup(3) + comment + self.soup(1) + key

    def comment(self):
        """A line with comments or quotes, opened or closed."""
        return self.soup(3) + self.pick(MARKS) + self.soup(3) + (self.pick(MARKS) if self.often(0.5) else "")

    def version(self):
        number = self.pick(["450", "440", "450 core", "300", "", "0450", "45", "٤٥٠"] + ["450"] * 8)
        return self.space() + "#version" + self.space(1) + number

    def lines(self, most):
        """Lines, with conditions that mostly end."""
        lines, opened = [], 0
        for _ in range(self.random.randint(0, most)):
            form = self.random.random()
            if form < 0.16:
                line = self.condition()
                opened += "else" not in line
            elif form < 0.24:
                line = self.hash(self.pick(["else", "else", "elsewhere", "else x", "else if X", "else K"]))
                line = line if opened or self.often(0.1) else ""
            elif form < 0.34:
                line = self.hash("endif") if opened or self.often(0.1) else self.soup(4)
                opened = max(0, opened - 1)
            elif form < 0.46:
                line = self.import_line()
            elif form < 0.5:
                line = self.define()
            elif form < 0.52:
                line = self.import_path()
            elif form < 0.53:
                line = self.ambiguous()
            elif form < 0.55:
                line = self.version()
            else:
                line = self.comment() if form > 0.92 else self.soup()
            lines.append(line)
        return lines + ["#endif"] * (opened if self.often(0.9) else 0)

    def directives(self):
        """Lines that may be directives, with what may stand between them."""
        lines = []
        while self.often(0.7):
            lines.append(self.space() + self.pick(DIRECTIVES, DIRECTIVES, ["", "// x", "/* x */"]) + self.space())
        return lines

    def ended(self, lines):
        """Lines joined to a text."""
        end = "\n" if self.often(0.8) else self.pick(["\r\n", "\r", "\r\r\n", "\n\n"])
        text = end.join(lines)
        return text + (end if self.often(0.8) else self.pick(["", "\r", "\n\r", "\n\n", "\r\r\n"]))

    def text(self, most=14):
        lines = self.directives() if self.often(0.25) else []
        return self.ended(lines + self.lines(most))

    def definitions(self):
        """Words that define names."""
        words = []
        while self.often(0.6):
            name = self.pick(NAMES[:7], ["A", "K", "B"]) if self.often(0.99) else self.pick(["", "-", "a b", "+x", "·"])
            value = self.pick(GOOD_VALUES, ["", "1", "0", "true", "-1"]) if self.often(0.99) else self.pick(VALUES)
            words.append(f"{name}={value}")
            self.defined.append(name)
        return words
