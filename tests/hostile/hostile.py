"""Hostile input for `oil`, with what has to come of it. Prints a line for each item.

    hostile.py [ITEM..]

The program is OIL of the environment. The fronts of the texts of `texts.jsonl` are compared with a plain reading of the rules,
that of the fuzzer. Ends with status 1 if any answer was another one."""
import base64
import json
import os
import re
import sys

HERE = os.path.dirname(os.path.abspath(__file__))
sys.path.insert(0, os.path.join(os.path.dirname(HERE), "fuzz"))

import cases  # noqa: E402 (the fuzzer's folder has to be known first)

SIZES = (1, 10, 100, 1000)

# The faults that `oil pre` may tell of a text.
NAMED = re.compile(
    "error: (Not enough '# endif' lines|Too many '# endif' lines|'#else' without preceding condition|"
    "Unknown shader def|Invalid shader def comparison|naga oil only supports glsl 440 and 450|"
    "Invalid value for `#define`d shader def|Invalid WGSL directive|Ambiguous import path for item|expected |"
    "open brace must follow |close brace without open|unexpected token|missing close brace)"
)


def base32(name):
    return base64.b32encode(name.encode()).decode().rstrip("=")


def decorated(item, module):
    return f"{item}X_naga_oil_mod_X{base32(module)}X"


def make(modules, top, *words):
    """`oil make` of a shader and of modules by name, in this order."""
    files = {f"{name}.txt": f"#define_import_path {name}\n{text}".encode() for name, text in modules.items()}
    return cases.Case(["make", "top.txt", *files, *words], {**files, "top.txt": top.encode()})


def pre(text, *words):
    return cases.Case(["pre", "t.txt", *words], {"t.txt": text if isinstance(text, bytes) else text.encode()})


def largest_text():
    """A build's text has to be shorter than 2,097,152 bytes."""
    made = f"fn {decorated('g', 'm')}() = 1\nentry main = {decorated('g', 'm')}()\n"
    front = len("#define_import_path m\nfn g() = 1\n//\n")
    for length, wanted in ((2**21 - 1, (0, made, "")), (2**21, (1, "", "error: shader text too large\n  in m.txt\n"))):
        yield make({"m": "fn g() = 1\n//" + "x" * (length - front) + "\n"}, "entry main = m::g()"), wanted


def most_modules():
    """A composer takes 2,047 modules; one of them may be added again then."""
    modules = {f"m{number}": "" for number in range(1, 2048)}
    yield make(modules, "entry main = 1"), (0, "entry main = 1\n", "")
    yield make({**modules, "m2048": ""}, "entry main = 1"), (1, "", "error: too many modules\n  in m2048.txt\n")
    case = make(modules, "entry main = 1")
    case.words.append("m7.txt")
    yield case, (0, "entry main = 1\n", "")


def unread_files():
    """A file that isn't there, a folder, and a file that isn't UTF-8."""
    good = b"entry main = 1"
    for name, data in (("no.txt", "missing"), ("folder", None), ("bytes.txt", b"a\xff"), ("cut.txt", "é".encode()[:1])):
        files = {} if data == "missing" else {name: data}
        wanted = (2, "", f"cannot read {name}\n")
        yield cases.Case(["pre", name], files), wanted
        yield cases.Case(["make", name], files), wanted
        yield cases.Case(["make", "top.txt", name], {**files, "top.txt": good}), wanted


def many_calls():
    """A text of many calls of an imported function."""
    for count in SIZES:
        wanted = " " * 12 + "\n" + f"{decorated('f', 'a')}()\n" * count
        yield pre("#import a::f\n" + "f()\n" * count), (0, wanted, "")


def many_entry_points():
    """A shader of many entry points."""
    for count in SIZES:
        top = "".join(f"entry e{place} = m::g()\n" for place in range(1, count + 1))
        made = "".join(f"entry e{place} = {decorated('g', 'm')}()\n" for place in range(1, count + 1))
        yield make({"m": "fn g() = 1"}, top), (0, f"fn {decorated('g', 'm')}() = 1\n{made}", "")


def many_functions():
    """Functions that each call the one before it, put in order behind an override: by how deep they call, then by place."""
    base, ten = decorated("f", "a"), "fX_naga_oil_vrt_XMEXX_naga_oil_mod_XMIX"
    modules = {
        "a": "virtual fn f(x) = x + 1",
        "b": "#import a\noverride fn a::f(x) = a::f(x) + 10",
    }
    for count in SIZES:
        chain = ["fn f0() = 1\n"] + [f"fn f{place}() = f{place - 1}()\n" for place in range(1, count)]
        top = "#import a\n" + "".join(chain) + f"entry main = f{count - 1}() + a::f(5)\n"
        made = f"fn {base}(x) = x + 1\n{chain[0]}fn {ten}(x) = {base}(x) + 10\n" + "".join(chain[1:])
        made += f"entry main = f{count - 1}() + {ten}(5)\n"
        yield make(modules, top, "+b"), (0, made, "")


def shared_levels():
    """Thirty levels of two modules, each of which imports both of the level below: each is built once."""
    modules = {"a1": "fn f() = 1", "b1": "fn f() = 1"}
    made = "".join(f"fn {decorated('f', name)}() = 1\n" for name in ("a1", "b1"))
    for level in range(2, 31):
        for name in (f"a{level}", f"b{level}"):
            below = f"a{level - 1}", f"b{level - 1}"
            modules[name] = f"fn f() = {below[0]}::f() + {below[1]}::f()"
            if name != "b30":
                called = " + ".join(f"{decorated('f', called)}()" for called in below)
                made += f"fn {decorated('f', name)}() = {called}\n"
    made += f"entry main = {decorated('f', 'a30')}()\n"
    assert made.count("\n") == 60
    yield make(modules, "entry main = a30::f()"), (0, made, "")


def conditions_in_imports():
    """Lines of an import that look like conditions."""
    told = "unexpected token"
    yield pre("#import a::{b,\n#ifdef X\nc}\nb"), (
        1, "", f"error: {told}\n  at t.txt:2:1\n  note: invalid import spec: '{told}'\n")
    text = '#ifdef Z\n#import a::{"\n#if XX == 1\n#endif\n"}\n#endif'
    yield pre(text), (1, "", "error: Unknown shader def: 'XX'\n  at t.txt:3:1\n")
    yield pre(text, "Z="), (0, "".join(" " * length + "\n" for length in (8, 13, 11, 6, 2, 6)), "")


def unrecorded_import():
    """An import that the value of a name brings, and that its module doesn't record."""
    wanted = "error: required import 'a' not found\n  at top.txt:1:1\n  note: missing import 'a'\n"
    case = make({"a": "fn f() = 1", "m": "fn g() = a::#X"}, "entry main = m::g()", "X=5")
    yield case, (1, "", wanted)


def texts():
    with open(os.path.join(HERE, "texts.jsonl"), encoding="utf-8") as lines:
        return [json.loads(line) for line in lines]


def fronts():
    """Each front of each text: a value, or a named fault, as the plain reading has it."""
    for text in texts():
        for length in range(len(text) + 1):
            case = pre(text[:length])
            status, out, err = cases.said_by_model(case)
            named = status == 0 or (status == 1 and NAMED.match(err.decode()))
            yield case, (status if named else "no named fault", out.decode(), err.decode())


ITEMS = (largest_text, most_modules, unread_files, many_calls, many_entry_points, many_functions, shared_levels,
         conditions_in_imports, unrecorded_import, fronts)


def told(name, case, wanted, had):
    return "\n".join([f"wrong {name}: " + " ".join(map(repr, case.words[:8])),
                      *(f"    {side}: {text!r:.300}" for side, text in (("expected", wanted), ("program ", had)))])


def main(words):
    unknown = set(words) - {item.__name__ for item in ITEMS}
    if unknown:
        print(f"hostile.py: there is no item {min(unknown)}", file=sys.stderr)
        return 2
    runner, wrong, count = cases.Runner(os.environ["OIL"]), 0, 0
    try:
        for item in ITEMS:
            if words and item.__name__ not in words:
                continue
            here, failed = 0, 0
            for case, wanted in item():
                status, out, err = runner.said_by_program(case)
                had = (status, out.decode(errors="replace"), err.decode(errors="replace"))
                here += 1
                if had != wanted:
                    failed += 1
                    if failed <= 3:
                        print(told(item.__name__, case, wanted, had), flush=True)
            print(f"{'ok' if failed == 0 else 'wrong'} {item.__name__}: {here} runs, {failed} wrong", flush=True)
            wrong, count = wrong + failed, count + here
    finally:
        runner.close()
    print(f"{count} runs, {wrong} wrong")
    return 1 if wrong else 0


if __name__ == "__main__":
    sys.setrecursionlimit(10000)
    sys.exit(main(sys.argv[1:]))
