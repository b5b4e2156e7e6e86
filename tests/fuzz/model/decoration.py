"""Names of items with their modules, and names as a reader is shown them."""
import re

from .characters import is_word

MODULE_MARK = "X_naga_oil_mod_X"
OVERRIDE_MARK = "X_naga_oil_vrt_X"
DIGITS = "ABCDEFGHIJKLMNOPQRSTUVWXYZ234567"


def encoded(text):
    """The base32 of a text's bytes, without padding."""
    bits = "".join(f"{byte:08b}" for byte in text.encode())
    bits += "0" * (-len(bits) % 5)
    return "".join(DIGITS[int(bits[at:at + 5], 2)] for at in range(0, len(bits), 5))


def decoded(code):
    """The text of a code, or None."""
    if any(c not in DIGITS for c in code):
        return None
    bits = "".join(f"{DIGITS.index(c):05b}" for c in code)
    whole = len(bits) // 8 * 8
    if len(bits) - whole >= 5 or "1" in bits[whole:]:
        return None
    data = bytes(int(bits[at:at + 8], 2) for at in range(0, whole, 8))
    try:
        return data.decode()
    except UnicodeDecodeError:
        return None


def decoration(module):
    """What stands behind the names of a module's items."""
    return "" if module is None else MODULE_MARK + encoded(module) + "X"


def decorated_name(module, item):
    return item + decoration(module)


def code_behind(text, at):
    """The code that stands here and is ended by an `X`, or None; and the place behind that `X`."""
    run = re.compile("[A-Z0-9]*").match(text, at).group()
    code, found, _ = run.rpartition("X")
    return (code, at + len(code) + 1) if found else (None, at)


def undecorate(text):
    """A text as a reader is shown it."""
    runs, at = [], 0
    while at < len(text):
        end = at
        while end < len(text) and is_word(text[end]) == is_word(text[at]):
            end += 1
        runs.append(module_in_front(text[at:end]))
        at = end
    return overrides_told("".join(runs))


def module_in_front(run):
    """A run of word characters with its last module mark as `module::` in front."""
    for at in range(len(run) - 1, 0, -1):
        if run.startswith(MODULE_MARK, at):
            code, end = code_behind(run, at + len(MODULE_MARK))
            if code is not None:
                module = decoded(code)
                return run if module is None else module + "::" + run[:at] + run[end:]
    return run


def overrides_told(text):
    """A text with each override mark as `override fn module::`."""
    told, at = "", 0
    while at < len(text):
        if text.startswith(OVERRIDE_MARK, at):
            code, end = code_behind(text, at + len(OVERRIDE_MARK))
            module = None if code is None else decoded(code)
            if module is not None:
                told += "override fn " + module + "::"
                at = end
                continue
        told += text[at]
        at += 1
    return told
