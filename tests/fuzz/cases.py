"""Cases: the files of a folder and the words behind `oil`; what the program and the model say of one, and its storing."""
import base64
import json
import os
import shutil
import subprocess
import tempfile
import traceback

from model import program as model

LIMIT = 120  # seconds for one run of the program


class Case:
    """Words, and files by name: bytes, or None for a folder."""

    def __init__(self, words, files, expected=None):
        self.words = list(words)
        self.files = dict(files)
        self.expected = expected  # status, standard output and standard error, where they are known

    def changed(self, words=None, files=None):
        return Case(self.words if words is None else words, self.files if files is None else files)


def said_by_model(case):
    """Status, standard output and standard error by the plain reading."""
    try:
        status, out, err = model.run(case.words, case.files.get)
        return status, out.encode(), err.encode()
    except Exception:  # the model itself has to be mended then
        return "the model failed", b"", traceback.format_exc().encode()


class Runner:
    """Runs the program in a folder of its own."""

    def __init__(self, program):
        self.program = os.path.abspath(program)
        self.folder = tempfile.mkdtemp(prefix="oil-fuzz-")
        self.status = None  # of the last run

    def close(self):
        shutil.rmtree(self.folder, ignore_errors=True)

    def said_by_program(self, case):
        """Status, standard output and standard error of the program."""
        put_files(self.folder, case.files)
        try:
            ran = subprocess.run([self.program, *case.words], cwd=self.folder, capture_output=True, timeout=LIMIT,
                                 stdin=subprocess.DEVNULL)
            return ran.returncode, ran.stdout, ran.stderr
        except subprocess.TimeoutExpired:
            return f"not ended after {LIMIT} seconds", b"", b""
        finally:
            for name in case.files:
                remove(os.path.join(self.folder, name))

    def difference(self, case):
        """What the model and the program say, where that differs, or None."""
        wanted, had = said_by_model(case), self.said_by_program(case)
        self.status = had[0]
        if wanted == had and case.expected in (None, wanted):
            return None
        return wanted, had


def put_files(folder, files):
    for name, data in files.items():
        path = os.path.join(folder, name)
        if data is None:
            os.makedirs(path, exist_ok=True)
        else:
            with open(path, "wb") as file:
                file.write(data)


def remove(path):
    if os.path.isdir(path):
        shutil.rmtree(path)
    elif os.path.exists(path):
        os.remove(path)


def told(case, said):
    """A case and what each side says, to be printed."""
    lines = ["oil " + " ".join(map(repr, case.words))]
    for name, data in case.files.items():
        lines.append(f"--- {name}: {'a folder' if data is None else repr(data)}")
    sides = zip(("model", "program"), said)
    if case.expected is not None:
        sides = [("expected", case.expected), *sides]
    for side, (status, out, err) in sides:
        lines.append(f"=== {side}: status {status}")
        lines += [f"{name} {data!r}" for name, data in (("out", out), ("err", err)) if data]
    return "\n".join(lines)


def store(folder, case, said):
    """Writes a case into a folder: its files, its words, and what each side said."""
    remove(folder)
    os.makedirs(os.path.join(folder, "files"))
    put_files(os.path.join(folder, "files"), case.files)
    with open(os.path.join(folder, "words.json"), "w", encoding="utf-8") as file:
        json.dump(case.words, file, ensure_ascii=False)
    with open(os.path.join(folder, "said.txt"), "w", encoding="utf-8") as file:
        file.write(told(case, said) + "\n")


def stored(folder):
    """All cases of a folder: one of each folder in it, and one of each line of a `.jsonl` file."""
    for name in sorted(os.listdir(folder)) if os.path.isdir(folder) else []:
        path = os.path.join(folder, name)
        if os.path.isdir(path):
            yield name, from_folder(path)
        elif name.endswith(".jsonl"):
            with open(path, encoding="utf-8") as lines:
                for line in lines:
                    yield from_line(json.loads(line))


def from_folder(path):
    with open(os.path.join(path, "words.json"), encoding="utf-8") as file:
        words = json.load(file)
    files = {}
    below = os.path.join(path, "files")
    for name in sorted(os.listdir(below)) if os.path.isdir(below) else []:
        inner = os.path.join(below, name)
        files[name] = None if os.path.isdir(inner) else open(inner, "rb").read()
    return Case(words, files)


def from_line(row):
    """The name and case of a row with `name`, `words`, `files`, `status`, `stdout` and `stderr`."""
    files = {name: data_of(text) for name, text in row["files"].items()}
    expected = (row["status"], row["stdout"].encode(), row["stderr"].encode())
    return row["name"], Case(row["words"], files, expected)


def data_of(text):
    """The bytes of a file of a row: None for a folder."""
    if isinstance(text, dict):
        return base64.b64decode(text["base64"])
    return None if text is None else text.encode()
