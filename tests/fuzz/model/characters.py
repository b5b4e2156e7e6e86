"""Classes of characters."""
import unicodedata

# Unicode's White_Space.
WHITE = "\t\n\x0b\x0c\r \x85\xa0\u1680" + "".join(map(chr, range(0x2000, 0x200B))) + "\u2028\u2029\u202f\u205f\u3000"

# Symbols that count as Alphabetic though they are no letters: circled and squared Latin letters.
ALPHABETIC_SYMBOLS = ((0x24B6, 0x24E9), (0x1F130, 0x1F149), (0x1F150, 0x1F169), (0x1F170, 0x1F189))


def is_white(c):
    return c in WHITE


def is_word(c):
    """Alphabetic, Mark, Decimal_Number, Connector_Punctuation or Join_Control."""
    category = unicodedata.category(c)
    if category[0] in "LM" or category in ("Nl", "Nd", "Pc") or c in "\u200c\u200d":
        return True
    return any(first <= ord(c) <= last for first, last in ALPHABETIC_SYMBOLS)


def is_name(c):
    """May stand in the name of a definition."""
    return c == "|" or is_word(c)


def is_value(c):
    """May stand in the value of a definition."""
    return c == "-" or is_name(c)


def starts_identifier(c):
    """Unicode's XID_Start."""
    return c != "_" and c.isidentifier()


def continues_identifier(c):
    """Unicode's XID_Continue."""
    return ("a" + c).isidentifier()


def size(text):
    """How many bytes a text has."""
    return len(text) if text.isascii() else len(text.encode())


def white_at(text, at):
    """The place behind the white space that stands at a place."""
    return run_at(text, at, is_white)


def run_at(text, at, belongs):
    """The place behind the run of characters of one class that stands at a place."""
    while at < len(text) and belongs(text[at]):
        at += 1
    return at
