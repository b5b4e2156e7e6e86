#!/usr/bin/env python3
"""random_programs.py SEED COUNT FOLDER: writes random compute shaders. Each ends by itself, reads nothing that it didn't write, and
writes numbers that depend on the order in which it computes: functions change variables that others read."""
import os
import random
import sys

HEAD = """struct Part {{ near: u32, at: vec3u, slots: array<i32, 4> }}
struct Whole {{ parts: array<Part, 2>, turn: mat2x2f }}
alias Count = u32;
const FEW = {few};
const MANY: u32 = FEW << {shift}u;
const RATIO = {ratio};
@group(0) @binding(0) var<storage, read_write> out: array<u32, 64>;
var<private> state: u32 = {start}u;
var<private> part: Part;
var<private> whole: Whole;
var<workgroup> tally: array<atomic<u32>, 4>;
"""

LAST = """    let old = atomicAdd(&tally[1], state);
    atomicMax(&tally[1], most);
    {results}
    out[20] = state + part.near; out[21] = part.at.x; out[22] = part.at.y; out[23] = part.at.z; out[24] = own; out[25] = most;
    for (var i = 0u; i < 4u; i++) {{ out[26u + i] = bitcast<u32>(part.slots[i]); out[30u + i] = bitcast<u32>(whole.parts[i % 2u].slots[i]); }}
    out[34] = whole.parts[0].near; out[35] = whole.parts[1].at.y; out[36] = bitcast<u32>(whole.turn[0].x + whole.turn[1].y);
    out[37] = atomicLoad(&tally[1]); out[38] = bitcast<u32>(real);
}}
"""


class Program:
    def __init__(self, dice):
        self.dice = dice
        self.functions = []
        self.made = 0

    def pick(self, *choices):
        return self.dice.choice(choices)

    def number(self, most):
        return self.dice.randrange(most)

    def fresh(self, letter):
        """A new name, at times that of another block."""
        self.made += 1
        return f"{letter}{self.made if self.number(4) else self.number(3)}"

    def leaf(self, names):
        return self.pick(
            self.dice.choice(names), self.dice.choice(names), self.dice.choice(names), f"{self.number(60)}u", f"0x{self.number(255):x}u", "MANY",
            "state", "part.near", "part.at.x", "part.at[1]", "part.at.zyx.y", "u32(FEW)", "Count(FEW)", "u32(part.slots[2])",
            "whole.parts[1].at.z", "whole.parts[FEW % 2].near", f"part.at[{self.dice.choice(names)} % 3u]")

    def whole(self, depth, names):
        """An expression of type u32."""
        if depth == 0:
            return self.leaf(names)
        one = lambda: self.whole(depth - 1, names)
        kind = self.number(22)
        if kind < 3:
            return self.leaf(names)
        if kind < 8:
            return f"({one()} {self.pick('+', '-', '*', '^', '|', '&')} {one()})"
        if kind < 10 and self.functions:
            name, has_pointer = self.dice.choice(self.functions)
            return f"{name}({one()}{', &own' if has_pointer else ''})"
        test = lambda: self.truth(depth - 1, names)
        return [
            lambda: f"({one()} {self.pick('<<', '>>')} ({one()} & 7u))",
            lambda: f"select({one()}, {one()}, {test()})",
            lambda: f"{self.pick('min', 'max')}({one()}, {one()})",
            lambda: f"vec3u({one()}, {one()}, 7).{self.pick('x', 'y', 'z', 'zx.x', 'xyz.y')}",
            lambda: f"({one()} {self.pick('/', '%')} {1 + self.number(9)}u)",
            lambda: f"bitcast<u32>(-bitcast<i32>({one()}) - {self.number(9)})",
            lambda: f"~{one()}",
            lambda: f"array({one()}, {one()}, 3u)[{one()} % 3u]",
            lambda: f"Part({one()}, vec3u(1, 2, {one()}), array(1, 2, 3, FEW)).{self.pick('near', 'at.z')}",
            lambda: f"dot(vec2u({one()}), vec2({one()}, 2u))",
            lambda: f"bitcast<u32>({self.real(depth - 1, names)})",
            lambda: f"u32(abs({self.real(depth - 1, names)}) % 1000.0)",
        ][kind - 10]()

    def real(self, depth, names):
        """An expression of type f32."""
        if depth == 0:
            return self.pick("real", "0.5", "RATIO * 1f", "3e-2f", "whole.turn[1].x", "f32(FEW)", f"f32({self.dice.choice(names)} & 1023u)")
        one = lambda: self.real(depth - 1, names)
        return [
            lambda: f"({one()} {self.pick('+', '-', '*')} {one()})",
            lambda: f"-{one()}",
            lambda: f"vec2f({one()}, RATIO).{self.pick('x', 'yx.y', 'g')}",
            lambda: f"(whole.turn * vec2f({one()}, 1.0)).x",
            lambda: f"clamp({one()}, -9.0, {1 + self.number(90)}.0)",
            lambda: f"f32({self.whole(depth - 1, names)} % 99u)",
            lambda: f"select({one()}, {one()}, {self.truth(depth - 1, names)})",
        ][self.number(7)]()

    def truth(self, depth, names):
        """An expression of type bool."""
        below = max(depth - 1, 0)
        kind = self.number(8) if depth else 0
        if kind < 4:
            return f"({self.whole(below, names)} {self.pick('<', '>', '==', '!=', '<=', '>=')} {self.whole(below, names)})"
        if kind < 6:
            return f"({self.truth(below, names)} {self.pick('&&', '||', '==')} {self.truth(below, names)})"
        if kind == 6:
            return f"!{self.truth(below, names)}"
        return f"{self.pick('any', 'all')}(vec2u({self.whole(below, names)}, 5u) < vec2u({self.whole(below, names)}))"

    def assignment(self, names):
        value = self.whole(2, names)
        place = self.dice.choice([name for name in names if name[0] == "v"] + ["own", "state"])
        return self.pick(
            f"{place} {self.pick('=', '+=', '^=', '*=', '-=')} {value};",
            f"{self.pick('state', 'part.near', 'part.at.y', 'whole.parts[1].at[2]')} = {value};",
            f"part.at[{self.whole(1, names)} % 3u] += {value};",
            f"whole.parts[{self.whole(1, names)} % 2u].slots[{self.whole(1, names)} % 4u] -= i32({value} & 255u);",
            f"part.slots[{self.whole(1, names)} % 4u] = i32({value} & 255u);",
            f"{place}{self.pick('++', '--')};",
            f"whole.turn[{self.whole(1, names)} % 2u] = vec2f({self.real(2, names)}, 2.5);",
            f"real = {self.real(2, names)};",
            f"whole.parts[{self.number(2)}] = part;",
            f"part.at = part.at.{self.pick('zxy', 'yyx', 'bgr')} + {value};",
        )

    def loop(self, depth, names):
        name = self.fresh("i")
        inside = self.block(depth - 1, [*names, name], "loop")
        turns = 1 + self.number(4)
        if self.number(3) == 0:
            return f"for (var {name} = 0u; {name} < {turns}u; {name}++) {{ {inside} }}"
        if self.number(2):
            return f"{{ var {name} = 0u; while {name} < {turns}u {{ {name}++; {inside} }} }}"
        end = f"continuing {{ {name} += 1u; break if {name} > {turns}u || {self.truth(1, ['state'])}; }}"
        return f"{{ var {name} = 0u; loop {{ {self.block(depth - 1, [*names, name], None)} {end} }} }}"

    def choice(self, depth, names):
        arm = lambda: self.block(depth - 1, names, None)
        if self.number(2):
            return f"if {self.truth(2, names)} {{ {arm()} }} else if {self.truth(1, names)} {{ {arm()} }} else {{ {arm()} }}"
        return f"switch {self.whole(1, names)} % 5u {{ case 0u, 3u: {{ {arm()} }} case 1u {{ {arm()} break; }} default: {{ {arm()} }} }}"

    def call(self, names):
        if not self.functions:
            return ";"
        name, has_pointer = self.dice.choice(self.functions)
        return f"{self.pick('_ = ', '')}{name}({self.whole(1, names)}{', &own' if has_pointer else ''});"

    def pointer(self, names):
        self.made += 1
        to = self.pick("own", "state", "part.near", "whole.parts[1].near", f"whole.parts[{self.whole(1, names)} % 2u].near")
        name = f"p{self.made}"
        return f"let {name} = &{to}; *{name} = *{name} + {self.whole(1, names)}; {to if '%' not in to else 'state'} ^= *{name};"

    def block(self, depth, names, around):
        """Statements. `around` is "loop" where a loop may be left or begun again."""
        names, declared, lines = list(names), set(), []
        for _ in range(1 + self.number(4)):
            kind = self.number(13)
            if kind < 3:
                word, letter = self.pick(("var", "v"), ("let", "x"))
                name = self.fresh(letter)
                if name not in declared:
                    declared.add(name)
                    kind_written = self.pick("", "", ": u32")
                    lines.append(f"{word} {name}{kind_written} = {self.whole(2, names)};")
                    names.append(name)
            elif kind < 7:
                lines.append(self.assignment(names))
            elif kind == 7 and depth:
                lines.append(self.loop(depth, names))
            elif kind == 8 and depth:
                lines.append(self.choice(depth, names))
            elif kind == 9:
                lines.append(self.call(names))
            elif kind == 10:
                lines.append(self.pointer(names))
            elif kind == 11:
                self.made += 1
                lines.append(f"const c{self.made} = FEW * {self.number(9)}; state += c{self.made};")
            elif kind == 12 and around == "loop":
                lines.append(f"if {self.truth(1, names)} {{ {self.pick('break', 'continue')}; }}")
        return " ".join(lines)

    def function(self, name):
        has_pointer = self.number(5) < 2
        names = ["a", "own"]
        first = "*to += a; let same = &(*to); *same ^= state; " if has_pointer else ""
        early = f"if {self.truth(1, names)} {{ return own; }} " if self.number(3) == 0 else ""
        body = f"{first}{self.block(2, names, None)} {early}return {self.whole(2, names)};"
        self.functions.append((name, has_pointer))
        parameter = ", to: ptr<function, u32>" if has_pointer else ""
        return f"fn {name}(a: u32{parameter}) -> u32 {{ var own = a; var real = RATIO * 2f; state = state * 3u + 1u; {body} }}\n"

    def text(self):
        head = HEAD.format(few=1 + self.number(8), shift=self.number(8), ratio=self.pick("0.25", "1.5", "0x1p-2"), start=self.number(100))
        functions = "".join(self.function(f"f{number}") for number in range(1 + self.number(4)))
        names = ["own", "most"]
        start = "var own = id.x + 1u; var most = 5u; var real = f32(id.y) + 0.5; part.at = vec3u(1, 2, 3); part.slots[1] = FEW; "
        body = self.block(3, names, None)
        results = " ".join(f"out[{at}] = {self.whole(3, [*names, 'old'])};" for at in range(8))
        main = "@compute @workgroup_size(1)\nfn main(@builtin(global_invocation_id) id: vec3u) {\n    "
        return head + functions + main + start + body + "\n" + LAST.format(results=results)


def main():
    seed, count, folder = int(sys.argv[1]), int(sys.argv[2]), sys.argv[3]
    os.makedirs(folder, exist_ok=True)
    for number in range(count):
        with open(f"{folder}/random_{number:04d}.wgsl", "w", encoding="utf-8") as file:
            file.write(Program(random.Random(seed * 100000 + number)).text())


if __name__ == "__main__":
    main()
