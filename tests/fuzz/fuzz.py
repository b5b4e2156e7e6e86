"""Compares `oil` with a plain reading of its rules on random cases.

    fuzz.py SECONDS [SEED]

The program is OIL of the environment. The stored seeds are run first. Each difference is made smaller, printed, and
stored in the folder `found`. Ends with status 1 if there was any."""
import os
import random
import re
import signal
import sys
import time

import cases
import mutate
import orders
import projects
import texts as texts_of
from shrink import shrink

HERE = os.path.dirname(os.path.abspath(__file__))
ROOT = os.path.dirname(os.path.dirname(HERE))
SHRINKING = 120  # seconds for making one case smaller
MOST_FOUND = 20  # differences after which the run ends


def text_case(chance, known):
    """`oil pre` on a random text, or on a changed text of the repository."""
    texts = texts_of.Texts(chance)
    words = ["pre", *texts.definitions()]
    text = texts.text() if chance.random() < 0.7 else mutate.mutated(chance, known)
    name = texts_of.decorated(chance) if chance.random() < 0.08 else "t.txt"
    words.insert(chance.randint(1, len(words)), name)
    if chance.random() < 0.01:
        words.append(chance.choice(["+a", "t.txt", "u.txt", "", "X"]))
    data = text.encode()
    if chance.random() < 0.005:
        at = chance.randint(0, len(data))
        data = data[:at] + chance.choice([b"\xff", b"\xc3", b"\xe5\x90", b"\xed\xa0\x80", b"\0"]) + data[at:]
    return cases.Case(words, {name: None if chance.random() < 0.002 else data})


def project_case(chance, known):
    """`oil make` on a random project."""
    words, files = projects.project(chance)
    return cases.Case(words, files)


def chains_case(chance, known):
    """`oil make` on modules that override the functions of one."""
    words, files = projects.Chains(chance).project()
    return cases.Case(words, files)


def orders_case(chance, known):
    """`oil make` on modules of many items of which few are asked for."""
    words, files = orders.Orders(chance).project()
    return cases.Case(words, files)


def large_case(chance, known):
    """`oil make` of a module whose text is about as large as it may be."""
    text = "#define_import_path m\nfn g() = 1\n//"
    rest = 2**21 - len(text) - 1 - chance.choice([0, 0, 1, 1, 2, 22, 23])
    files = {"m.txt": (text + "x" * rest + "\n").encode(), "top.txt": b"entry main = m::g()"}
    return cases.Case(["make", "top.txt", "m.txt"], files)


def changed_project_case(chance, known):
    """`oil make` on texts of the repository, some of them changed."""
    known = [text for text in known if re.search("^(fn|const|entry|virtual|override) ", text, re.MULTILINE)]
    files, paths = {}, ["a", "b", "c", "m", "lighting"]
    for number in range(chance.choice([1, 2, 2, 3, 4])):
        text = mutate.mutated(chance, known)
        if number > 0 and "#define_import_path" not in text:
            text = f"#define_import_path {chance.choice(paths)}\n" + text
        files[f"m{number}.txt"] = text.encode()
    words = ["make", *files]
    for word in ["+a", "+b", "K=1", "L=2", "X=", "SKY=5"]:
        words += [word] if chance.random() < 0.2 else []
    return cases.Case(words, files)


def example_case(chance, known):
    """The example of `oil make` with one of its texts changed."""
    folder = os.path.join(ROOT, "examples", "lighting")
    names = ["top.txt", "palette.txt", "units.txt", "sphere.txt", "lighting.txt", "fog.txt", "night.txt"]
    files = {name: open(os.path.join(folder, name), "rb").read() for name in names}
    for _ in range(chance.choice([1, 1, 2])):
        name = chance.choice(names)
        text = files[name].decode()
        text = projects.broken(chance, text) if chance.random() < 0.6 else mutate.mutated(chance, [text])
        files[name] = text.encode()
    words = ["make", *names, "+fog", "+night", "SKY=5"]
    if chance.random() < 0.3:
        words.remove(chance.choice(words[2:]))
    return cases.Case(words, files)


KINDS = [(text_case, 38), (project_case, 36), (chains_case, 9), (orders_case, 9), (example_case, 4),
         (changed_project_case, 4), (large_case, 0.02)]


class Fuzzer:
    """One run: its cases, and what it found."""

    def __init__(self, runner, seed):
        self.runner = runner
        self.seed = seed
        self.known = mutate.collected(ROOT)
        self.count = 0
        self.statuses = {}
        self.found = []

    def seeds(self):
        """Runs the stored seeds."""
        for name, case in cases.stored(os.path.join(HERE, "seeds")):
            self.count += 1
            said = self.runner.difference(case)
            if said:
                self.found.append(name)
                print(f"seed {name} differs\n{cases.told(case, said)}", flush=True)
        print(f"{self.count} seeds, {len(self.found)} differ", flush=True)

    def run(self, seconds):
        """Runs random cases for some seconds."""
        started = told = time.monotonic()
        number = 0
        while time.monotonic() - started < seconds and len(self.found) < MOST_FOUND:
            self.one(number)
            number += 1
            if time.monotonic() - told > 60:
                told = time.monotonic()
                self.tell(number, told - started)
        self.tell(number, time.monotonic() - started)

    def tell(self, number, seconds):
        by_status = ", ".join(f"{count} of status {status}" for status, count in sorted(self.statuses.items(), key=str))
        print(f"seed {self.seed}: {number} cases in {seconds:.0f} s, {number / max(seconds, 0.001):.0f} a second "
              f"({by_status}), {len(self.found)} differences", flush=True)

    def one(self, number):
        """Runs the random case of a number, which the seed tells."""
        chance = random.Random(f"{self.seed}-{number}")
        make = chance.choices([kind for kind, _ in KINDS], [weight for _, weight in KINDS])[0]
        case = make(chance, self.known)
        said = self.runner.difference(case)
        self.statuses[self.runner.status] = self.statuses.get(self.runner.status, 0) + 1
        if said:
            self.keep(f"{make.__name__}-{self.seed}-{number}", case)

    def keep(self, name, case):
        """Makes a case smaller, prints and stores it."""
        small = shrink(case, self.runner.difference, SHRINKING)
        said = self.runner.difference(small) or self.runner.difference(case)
        print(f"difference {name}\n{cases.told(small, said or ())}", flush=True)
        cases.store(os.path.join(HERE, "found", name), small, said or ())
        self.found.append(name)


def main(words):
    if not 1 <= len(words) <= 2 or not words[0].isdecimal():
        print("usage: fuzz.sh SECONDS [SEED]", file=sys.stderr)
        return 2
    sys.setrecursionlimit(10000)
    signal.signal(signal.SIGTERM, lambda *_: sys.exit(143))  # so that the folder of the run is removed
    seed = words[1] if len(words) == 2 else str(random.randrange(10**9))
    runner = cases.Runner(os.environ["OIL"])
    try:
        fuzzer = Fuzzer(runner, seed)
        fuzzer.seeds()
        fuzzer.run(int(words[0]))
    finally:
        runner.close()
    return 1 if fuzzer.found else 0


if __name__ == "__main__":
    sys.exit(main(sys.argv[1:]))
