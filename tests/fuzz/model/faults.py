"""Faults, each with what its report prints."""


class Fault(Exception):
    """A message, the places of its text with their labels, notes, and the source that it lies in."""

    def __init__(self, message, places=(), notes=(), line=None):
        super().__init__(message)
        self.message = message
        self.places = list(places)  # (start of a span, label)
        self.notes = list(notes)
        self.line = line  # the index of a line, where the place is told so
        self.source = None

    def within(self, source):
        """The fault, laid to a source unless it has one."""
        if self.source is None:
            self.source = source
        return self


class Usage(Exception):
    """One line of standard error, with status 2."""


def fault_at(message, place, *notes):
    return Fault(message, [(place, "")], notes)


def import_parse_error(text, place):
    return fault_at(text, place, f"invalid import spec: '{text}'")


def import_not_found(name, place):
    return fault_at(f"required import '{name}' not found", place, f"missing import '{name}'")
