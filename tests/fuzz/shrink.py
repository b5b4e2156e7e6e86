"""Makes a case smaller while something stays true of it."""
import re
import time


def shrink(case, still, seconds):
    """The smallest case found within some seconds of which `still` holds."""
    shrinker = Shrinker(case, still, time.monotonic() + seconds)
    for cut in (whole_lines, words_of_lines, characters):
        while shrinker.round(cut):
            pass
    return shrinker.case


class Shrinker:
    """The smallest case so far."""

    def __init__(self, case, still, end):
        self.case = case
        self.still = still
        self.end = end

    def is_late(self):
        return time.monotonic() > self.end

    def round(self, cut):
        """Tries once to drop words, files and pieces of each file, and says whether the case became smaller."""
        shrunk = self.drop_words()
        shrunk = self.drop_files() or shrunk
        for name in list(self.case.files):
            shrunk = self.drop_pieces(name, cut) or shrunk
        return shrunk and not self.is_late()

    def take(self, case):
        """Takes a smaller case if it still shows what is looked for."""
        if not self.is_late() and self.still(case):
            self.case = case
            return True
        return False

    def drop_words(self):
        return self.drop(lambda: self.case.words, lambda words: self.case.changed(words=words))

    def drop_files(self):
        return self.drop(lambda: list(self.case.files),
                         lambda names: self.case.changed(files={name: self.case.files[name] for name in names}))

    def drop_pieces(self, name, cut):
        """Drops pieces of a file's text."""
        data = self.case.files.get(name)
        if data is None:
            return False

        def with_pieces(pieces):
            return self.case.changed(files={**self.case.files, name: b"".join(pieces)})

        return self.drop(lambda: cut(self.case.files[name]), with_pieces)

    def drop(self, pieces, made_of):
        """Drops runs of pieces, long ones first."""
        shrunk = False
        length = max(1, len(pieces()) // 2)
        while length >= 1 and not self.is_late():
            at = 0
            while at < len(pieces()) and not self.is_late():
                now = pieces()
                if self.take(made_of(now[:at] + now[at + length:])):
                    shrunk = True
                else:
                    at += length
            length //= 2
        return shrunk


def whole_lines(data):
    return data.splitlines(keepends=True)


def words_of_lines(data):
    return re.findall(rb"[A-Za-z0-9_]+|\s+|[^A-Za-z0-9_\s]+", data)


def characters(data):
    try:
        return [c.encode() for c in data.decode()]
    except UnicodeDecodeError:
        return [data[at:at + 1] for at in range(len(data))]
