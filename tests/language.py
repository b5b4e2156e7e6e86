"""The examples of docs/LANGUAGE.md are what the programs print.

    language.py [ROOT]

A paragraph that ends with a name of a file in code and `:`, and an indented block, are a file. One with a command of `oil` or
`yettuvam` in code that ends with `prints` or `reports`, and an indented block, are what the command prints, on standard output or
standard error, where lines of white space are left out. The programs are OIL and YETTUVAM of the environment, else `oil` and
`yettuvam` at the top of the repository, which are proved and built at their first run."""
import os
import re
import subprocess
import sys
import tempfile

ROOT = os.path.abspath(sys.argv[1] if len(sys.argv) > 1 else os.path.join(os.path.dirname(__file__), ".."))


def blocks(text):
    """The paragraphs and the indented blocks of a page, in order, each with whether it is indented."""
    found = []
    for part in text.split("\n\n"):
        is_code = part.startswith("    ")
        if is_code and found and found[-1][0]:
            found[-1][1] += "\n\n" + part
        else:
            found.append([is_code, part])
    return found


def shown(text):
    return [line.rstrip() for line in text.split("\n") if line.strip()]


def main():
    with open(f"{ROOT}/docs/LANGUAGE.md", encoding="utf-8") as page:
        text = page.read()
    before, count, failed = "", 0, 0
    with tempfile.TemporaryDirectory() as folder:
        for is_code, part in blocks(text):
            if not is_code:
                before = " ".join(part.split("\n"))
                continue
            block = "\n".join(line[4:] for line in part.split("\n")) + "\n"
            file = re.search(r"`([\w.]+)`:$", before)
            command = re.search(r"`((?:oil|yettuvam) [^`]*)` (prints|reports)$", before)
            if file:
                with open(f"{folder}/{file[1]}", "w", encoding="utf-8") as to:
                    to.write(block)
            elif command:
                words = command[1].split()
                program = os.environ.get(words[0].upper()) or f"{ROOT}/{words[0]}"
                ran = subprocess.run([program, *words[1:]], cwd=folder, capture_output=True, text=True)
                got = shown(ran.stdout if command[2] == "prints" else ran.stderr)
                count += 1
                if got != shown(block):
                    failed += 1
                    print(f"{command[1]}\nwanted\n{block}got (status {ran.returncode})\n{ran.stdout}{ran.stderr}")
    print(f"{count} examples of docs/LANGUAGE.md, {failed} failed")
    sys.exit(count == 0 or failed > 0)


main()
