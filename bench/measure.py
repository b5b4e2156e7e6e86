"""Measures what `run.sh` wrote, and prints tables in Markdown.

    measure.py FOLDER OIL PROBE RUNS SIZES

FOLDER holds a folder for each kind of input and each size, and the other program, if it was built. Seconds are those of the
processor, user and system, the least of RUNS runs (of two, where one takes more than two seconds)."""
import os
import re
import shutil
import statistics
import subprocess
import sys

FOLDER, OIL, PROBE, RUNS = sys.argv[1], sys.argv[2], sys.argv[3], int(sys.argv[4])
SIZES = [int(size) for size in sys.argv[5].split()]
PEER = os.path.join(FOLDER, "peer", "peer")
QUIET = [(os.POSIX_SPAWN_OPEN, stream, os.devnull, os.O_WRONLY, 0) for stream in (1, 2)]
MODULES = {1: 20, 10: 204, 100: 2047}
ENVIRONMENT = dict(os.environ, LC_ALL="C")


sys.stdout.reconfigure(line_buffering=True)


def tell(text):
    print(f"bench: {text}", file=sys.stderr)


def folder_of(kind, size):
    return os.path.join(FOLDER, f"{kind}.{size}")


def bytes_of(kind, size):
    names = os.listdir(folder_of(kind, size))
    kept = [name for name in names if name in ("text", "top") or name.endswith(".txt")]
    return sum(os.path.getsize(os.path.join(folder_of(kind, size), name)) for name in kept)


def run_once(command):
    """Seconds of one run, or None where its status isn't 0."""
    process = os.posix_spawnp(command[0], command, ENVIRONMENT, file_actions=QUIET)
    _, status, usage = os.wait4(process, 0)
    return usage.ru_utime + usage.ru_stime if status == 0 else None


def filled(command):
    """The words of a command; `@files` stands for what `oil make` is given."""
    for word in command:
        if word == "@files":
            with open("files", encoding="utf-8") as files:
                yield from files.read().split()
        else:
            yield word


def seconds(command, kind, size):
    os.chdir(folder_of(kind, size))
    command = list(filled(command))
    taken = [run_once(command)]
    while taken[-1] is not None and len(taken) < (RUNS if taken[0] <= 2 else min(RUNS, 2)):
        taken.append(run_once(command))
    return None if None in taken else min(taken)


def times_longer(command, kind, size, before):
    """How many times as long a command takes at a size as at the one before, by runs in turn on one processor: each longer run
    beside the median of twelve shorter ones, six before it and six behind it, and of these ratios the median. What else a
    machine does changes its pace, for seconds at a time; so runs that are compared stand side by side."""
    processors = os.sched_getaffinity(0)
    os.sched_setaffinity(0, {max(processors)})

    def run(at, count):
        os.chdir(folder_of(kind, at))
        words = list(filled(command))
        return [run_once(words) for _ in range(count)]

    ratios = []
    for _ in range(2 * RUNS + 1):
        shorter = run(before, 6)
        (longer,) = run(size, 1)
        ratios.append(longer / statistics.median(shorter + run(before, 6)))
    os.sched_setaffinity(0, processors)
    tell(f"{kind}: times {' '.join(f'{ratio:.2f}' for ratio in sorted(ratios))}")
    return statistics.median(ratios)


def peak(command, kind, size):
    """Bytes of memory at the peak, by GNU time, or None without it."""
    if not os.access("/usr/bin/time", os.X_OK):
        return None
    os.chdir(folder_of(kind, size))
    told = os.path.join(FOLDER, "told")
    command = ["/usr/bin/time", "-o", told, "-f", "%M", *filled(command)]
    subprocess.run(command, stdout=subprocess.DEVNULL, stderr=subprocess.DEVNULL, env=ENVIRONMENT, check=False)
    with open(told, encoding="utf-8") as lines:
        return int(lines.read().split()[-1]) * 1024


def shown(number, places=None):
    if number is None:
        return "-"
    if places is None:
        places = 4 if number < 0.1 else 3 if number < 1 else 2
    return f"{number:.{places}f}"


def print_row(label, cells, memory):
    print(f"| {label} | {' | '.join(cells)} | {shown(memory and memory / 2**20, 1)} |")


def print_head(label, cells):
    print(f"\n| {label} | {' | '.join(cells)} | MB at the peak |\n|{'---|' * (len(cells) + 2)}")


def measured(label, command, kind):
    """Prints a row, and gives its seconds by size and its peak of the last size."""
    taken = {size: seconds(command, kind, size) for size in SIZES}
    memory = peak(command, kind, SIZES[-1])
    print_row(label, [shown(taken[size]) for size in SIZES], memory)
    return taken, memory


def library_rows(kind):
    """The rows of the other program without its start, and the sums of both."""
    parts = {}
    for size in SIZES:
        command = [PEER, os.path.join(folder_of(kind, size), "text"), str(RUNS)]
        done = subprocess.run(command, stdout=subprocess.DEVNULL, stderr=subprocess.PIPE, text=True, check=True)
        parts[size] = [float(word) for word in done.stderr.split()]
    for part, what in enumerate(("the metadata", "the text")):
        print_row(f"of that in its library: {what}", [shown(parts[size][part]) for size in SIZES], None)
    return {size: sum(parts[size]) for size in SIZES}


def compare(kind):
    """Tells where the two programs give other texts."""
    text = os.path.join(folder_of(kind, SIZES[0]), "text")
    ours = subprocess.run([OIL, "pre", text], stdout=subprocess.PIPE, check=True).stdout
    theirs = subprocess.run([PEER, text], stdout=subprocess.PIPE, check=True).stdout
    if ours != theirs:
        tell(f"naga_oil in Rust gives another text for {kind}")


def texts(kind, what, others):
    """A table of programs over texts. Gives the rows that goals speak of."""
    print_head(what, [f"{bytes_of(kind, size) / 1e6:.3g} MB" for size in SIZES])
    rows = {"wc": measured("`wc`", ["wc", "text"], kind), "oil": measured("`oil pre`", [OIL, "pre", "text"], kind)}
    if os.access(PEER, os.X_OK):
        compare(kind)
        measured("naga_oil 0.21.0 in Rust", [PEER, "text"], kind)
        rows["library"] = library_rows(kind)
    for label, command in others:
        if shutil.which(command[0]):
            measured(label, command, kind)
        else:
            tell(f"{command[0]} isn't there; its row is left out")
    return rows


def makes():
    print_head("`oil make`, seconds", [f"{size}x" for size in SIZES])
    command = [OIL, "make", "@files"]
    counts = ", ".join(f"{MODULES[size]:,}" for size in SIZES)
    tree = measured(f"a tree of {counts} modules", command, "tree")
    counts = ", ".join(str(4 * size) for size in SIZES)
    measured(f"a chain of {counts} modules", command, "chain")
    return tree


def steps(words):
    """The milliseconds of the steps of `naga_oil_probe`, the least of some runs."""
    least = {}
    for _ in range(RUNS):
        done = subprocess.run([PROBE, *words, "--times"], stdout=subprocess.PIPE, text=True, check=True)
        for line in done.stdout.splitlines():
            step = re.sub(r"^\d+ (?=modules)", "", re.split(r"[:,]", line)[0])
            taken = int(line.split()[-2])
            least[step] = min(taken, least.get(step, taken))
    return least


def bench_rows(task, words_of):
    by_size = {size: steps(words_of(size)) for size in SIZES}
    memory = peak([PROBE, *words_of(SIZES[-1])], "plain", SIZES[-1])
    for step in by_size[SIZES[-1]]:
        print_row(f"{task}: {step}", [str(by_size[size][step]) for size in SIZES], memory)


def kept():
    if not os.access(PROBE, os.X_OK):
        tell("no program naga_oil_probe is named; its rows are left out")
        return
    print_head("`naga_oil_probe`, milliseconds", [f"{MODULES[size]:,} modules" for size in SIZES])
    bench_rows("reload", lambda size: ["reload", str(MODULES[size])])
    recording = {size: str((MODULES[size] + 49) // 50) for size in SIZES}
    bench_rows("variants", lambda size: ["variants", str(MODULES[size]), "10", recording[size]])


def goal(what, number, limit, at_least=False):
    reached = number >= limit if at_least else number <= limit
    bound = "at least" if at_least else "at most"
    print(f"| {what} | {bound} {limit} | {number:.3g} | {'yes' if reached else 'no'} |")


def goals(tables, tree):
    last = SIZES[-1]
    start = seconds([OIL, "pre", "text"], "plain", 0)
    print("\n| goal, at the last size | | is | reached |\n|---|---|---|---|")
    for kind, rows in tables.items():
        taken, memory = rows["oil"]
        if "library" in rows:
            ratio = rows["library"][last] / (taken[last] - start)
            goal(f"{kind}: the library in Rust beside `oil pre` without its start, times", ratio, 10, at_least=True)
        goal(f"{kind}: `oil pre` beside `wc`, times", taken[last] / rows["wc"][0][last], 2)
        if memory:
            goal(f"{kind}: memory of `oil pre` at its peak beside the text, times", memory / bytes_of(kind, last), 4)
    memory = tree[1]
    if len(SIZES) > 1:
        before = SIZES[-2]
        longer = bytes_of("tree", last) / bytes_of("tree", before)
        times = times_longer([OIL, "make", "@files"], "tree", last, before)
        goal("tree: a make beside linear growth from the size before, times", times / longer, 1.2)
    if memory:
        goal("tree: MB of a make at its peak", memory / 2**20, 64)


def versions():
    told = os.path.join(FOLDER, "peer", "crates")
    if os.access(told, os.R_OK):
        with open(told, encoding="utf-8") as line:
            print(f"\nnaga_oil in Rust was built with {line.read().strip()}.")


def main():
    others = [
        ("`cpp`", ["cpp", "-undef", "-nostdinc", "text.c"]),
        ("`glslangValidator -E`", ["glslangValidator", "-E", "text.frag"]),
    ]
    tables = {
        "plain": texts("plain", "a text without imports, seconds", others),
        "imports": texts("imports", "a text with imports and values, seconds", []),
    }
    tree = makes()
    kept()
    goals(tables, tree)
    versions()


main()
