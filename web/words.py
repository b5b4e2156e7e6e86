"""The words of the command that builds the static library, over the libraries that are built: words.py KIT ROOT, a word a line."""
import os
import sys

kit, root = sys.argv[1:3]
NAME = "yettuvam_c"


def direct():
    """The libraries that each crate names."""
    named = {}
    with open(f"{root}/crates.txt", encoding="utf-8") as file:
        for line in file:
            head, colon, rest = line.split("#")[0].partition(":")
            if colon:
                named[head.split()[0]] = rest.split()
    return named


def below(named, name, found):
    for other in named.get(name, []):
        if other not in found:
            below(named, other, found)
            found.append(other)
    return found


named = direct()
libraries = below(named, NAME, [])
own = [name for name in libraries if name in named]
folders = {name: f"{root}/crates/{name}/out/rlib" for name in own}
words = ["build", "--crate-name", NAME, "src/lib.rt"]
for name in ["std", *[name for name in libraries if name not in named and name != "std"]]:
    words += ["--extern", f"{name}={kit}/rlibs/{name}.rlib"]
words += ["-L", f"dependency={kit}/rlibs"]
for name in own:
    if not os.path.isdir(folders[name]):
        sys.exit(f"words.py: {name} isn't built: (cd crates/{NAME} && rt lib)")
    words += ["--extern", f"{name}={folders[name]}/{name}.rlib", "-L", f"dependency={folders[name]}"]
words += ["--antt-project", f"{kit}/rattle/logic/antt-project.json", "--logic-built", f"{kit}/logic_built"]
words += ["--incremental", "out/incremental", "--jobs", "1", "--links", f"{NAME}=", "--crate-type", "staticlib"]
print("\n".join(words))
