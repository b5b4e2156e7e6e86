"""Tokens of a text: (kind, text, place in bytes), the kind one of `name`, `white`, `other`."""
from .characters import continues_identifier, is_white, run_at, size, starts_identifier


def after_identifier(text, at):
    """The place behind the identifier that starts here."""
    quoted = False
    while at < len(text):
        if text[at] == '"':
            quoted = not quoted
            at += 1
        elif quoted or continues_identifier(text[at]):
            at += 1
        elif text.startswith("::", at):
            at += 2
        else:
            break
    return at


def tokens_of(text):
    """All tokens, white runs among them."""
    result, at, place = [], 0, 0
    while at < len(text):
        if is_white(text[at]):
            kind, end = "white", run_at(text, at, is_white)
        elif text[at] == '"' or starts_identifier(text[at]):
            kind, end = "name", after_identifier(text, at)
        else:
            kind, end = "other", at + 1
        result.append((kind, text[at:end], place))
        place += size(text[at:end])
        at = end
    return result
