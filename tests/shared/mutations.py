"""Random files of both formats, most of them with an error: mutated ones, and ones assembled from pieces.

The pieces are chosen so that every kind of error of docs/ERRORS.md occurs within a few thousand files.
"""

import re

NUMBERS = (
    "0",
    "1",
    "-1",
    "2",
    "0.5",
    "-0.5",
    "+4",
    "1e0",
    "1e-30",
    "5e19",
    "9e19",
    "-9e19",
    "99999999999999999999",
    "1e20",
    "-1e20",
    "1e30",
    "-1e30",
    "1e500",
    "1e501",
    "10e500",
    "1e-501",
    "1.e5",
    ".5",
    ".",
    "1e",
    "1d5",
    "1,5",
    "inf",
    "--1",
    "0." + "3" * 36,
    "0." + "3" * 37,
    "1234567890" * 3 + "123456",
    "1234567890" * 3 + "1234567",
    "0" * 255,
    "0" * 256,
    "1." + "0" * 254,
)
NAMES = (
    "X",
    "C",
    "K",
    "obj",
    "c1",
    "c2",
    "e",
    "E9",
    "x" * 255,
    "x" * 256,
    "'MARKER'",
    "to",
    "continuous",
    "Y",
    ";",
    "x[1]",
)

MPS_HEADERS = (
    "NAME",
    "NAME X",
    "OBJSENSE",
    "OBJSENSE MAX",
    "OBJSENSE MIN X",
    "OBJNAME",
    "OBJNAME C",
    "OBJNAME K",
    "ROWS",
    "COLUMNS",
    "RHS",
    "RANGES",
    "BOUNDS",
    "ENDATA",
    "QUADOBJ",
    "QSECTION",
    "SOS",
    "SOS1",
    "INDICATORS",
    "LAZYCONS",
    "rows",
    "ROWS X",
    "ENDATA X",
)
MPS_BLOCKS = ("'INTORG'", "'INTEND'", "'SOSORG'", "'INTBEG'", "'INTORG'  X", "")
MPS_WORDS = ("MAX", "MAXIMIZE", "MIN", "MINIMIZE", "max", "X")
ROW_TYPES = ("N", "L", "G", "E", "E", "n", "X")
BOUND_TYPES = ("LO", "UP", "FX", "FR", "MI", "PL", "BV", "LI", "UI", "SC", "SC", "XX", "up")

LP_WORDS = (
    "min",
    "max",
    "Maximize",
    "st",
    "s.t.",
    "subject to",
    "subject",
    "such that",
    "such to",
    "bounds",
    "generals",
    "int",
    "binaries",
    "bin",
    "end",
    "inf",
    "infinity",
    "free",
    "semi",
    "semis",
    "semi-continuous",
    "semi -",
    "sos",
    "SOS1",
    "to",
    "that",
    "continuous",
)
LP_OPERATORS = ("+", "-", "<", "<=", "=<", ">", ">=", "=>", "=", ":", "::", "->", "[", "]", "^", "*", ".", "\\ ")
LP_TOKEN = re.compile(
    rb"\\[^\n]*|\s+|[0-9.]+(?:[eE][+-]?[0-9]+)?|[^\s0-9<>=+:\[\]^*\\-][^\s<>=+:\[\]^*\\-]*|[<>=]+|.", re.S
)

BYTES = b" \n\r\t0123456789.+-<>=:eExX*\\'[]"
LONG = 1_048_577


# ---- changes of bytes and lines, for both formats


def changed_byte(source, text):
    at = source.randrange(len(text))
    byte = bytes([source.choice((source.randrange(256), source.choice(BYTES)))])
    return text[:at] + source.choice((b"", byte, text[at : at + 1] + byte)) + text[at + 1 :]


def changed_lines(source, text):
    """A line left out, repeated elsewhere or swapped with another, or the rest of the file left out."""
    lines = text.split(b"\n")
    one, other = source.randrange(len(lines)), source.randrange(len(lines))
    match source.randrange(4):
        case 0:
            del lines[one]
        case 1:
            lines.insert(other, lines[one])
        case 2:
            lines[one], lines[other] = lines[other], lines[one]
        case 3:
            del lines[one:]
    return b"\n".join(lines)


def long_line(source, text):
    """A line made too long, or just not too long, by spaces."""
    lines = text.split(b"\n")
    at = source.randrange(len(lines))
    lines[at] += b" " * (LONG - source.randrange(3) - len(lines[at]))
    return b"\n".join(lines)


def exchanged(source, items, others):
    """A list with an item left out, repeated, swapped, or replaced by or put after another."""
    items = list(items)
    if not items:
        return [source.choice(others)]
    one, other = source.randrange(len(items)), source.randrange(len(items))
    match source.randrange(6):
        case 0:
            del items[one]
        case 1:
            items.insert(one, items[other])
        case 2:
            items[one], items[other] = items[other], items[one]
        case 3:
            items[one] = items[other]
        case 4:
            items[one] = source.choice(others)
        case 5:
            items.insert(one, source.choice(others))
    return items


# ---- MPS


def mps_line(source, names):
    """A line that may occur in some section, with these names."""
    name = lambda: source.choice(names)
    number = lambda: source.choice(NUMBERS)
    front = source.choice(("", "S  ", "T  "))
    match source.randrange(9):
        case 0:
            return source.choice(MPS_HEADERS)
        case 1:
            return f" {source.choice(ROW_TYPES)}  {name()}"
        case 2:
            return f"    {name()}  {name()}  {number()}"
        case 3:
            return f"    {name()}  {name()}  {number()}  {name()}  {number()}"
        case 4:
            return f"    {front}{name()}  {number()}"
        case 5 | 6:
            return f" {source.choice(BOUND_TYPES)}  {front}{name()}  {source.choice((number(), ''))}"
        case 7:
            return f"    M  'MARKER'  {source.choice(MPS_BLOCKS)}"
        case 8:
            return source.choice(("", " ", "* a comment", f"    {source.choice(MPS_WORDS)}", f"    {name()}"))


def changed_fields(source, text):
    """A field of a line changed, or a line of some section inserted."""
    lines = text.split(b"\n")
    names = [field.decode("latin-1") for field in set(text.split()) if field.isascii()] or ["X"]
    at = source.randrange(len(lines))
    if source.random() < 0.4:
        lines.insert(at, mps_line(source, names + list(NAMES)).encode("latin-1"))
        return b"\n".join(lines)
    space = lines[at][:1] if lines[at][:1] in (b" ", b"\t") else b""
    pool = source.choice((NUMBERS, NAMES, names, BOUND_TYPES + ROW_TYPES, MPS_HEADERS, MPS_WORDS))
    fields = exchanged(source, lines[at].split(), [word.encode() for word in pool])
    lines[at] = space + b"  ".join(fields)
    return b"\n".join(lines)


def assembled_mps(source):
    """A small file whose lines are those of a model, with some others between them."""
    names = source.choice((("X", "Y", "C", "K"), NAMES))
    row = lambda: source.choice(("C", "K", "J"))
    number = lambda: source.choice(NUMBERS[:17])
    lines = ["ROWS", " N  C", f" {source.choice('LGEEN')}  K", f" {source.choice('LGE')}  J", "COLUMNS"]
    lines += ["    M  'MARKER'  'INTORG'"] if source.random() < 0.3 else []
    lines += ["    X  C  1  K  2", "    Y  J  1"]
    if source.random() < 0.7:
        lines += ["RHS"] + [f"    S  {row()}  {number()}" for _ in range(source.randrange(3))]
    if source.random() < 0.5:
        lines += ["RANGES"] + [f"    S  {source.choice('KJ')}  {number()}" for _ in range(source.randrange(3))]
    if source.random() < 0.7:
        lines += ["BOUNDS"] + [
            f" {source.choice(BOUND_TYPES)}  S  {source.choice('XY')}  {number()}"
            for _ in range(source.randrange(1, 4))
        ]
    lines += ["ENDATA"]
    for _ in range(source.choice((0, 0, 1, 1, 2, 3))):
        lines.insert(source.randrange(len(lines) + 1), mps_line(source, names))
    return ("\n".join(lines) + source.choice(("", "\n"))).encode("latin-1")


# ---- LP


def lp_tokens(source, names):
    """A few tokens that some section may have."""
    name = lambda: source.choice(names)
    number = lambda: source.choice(NUMBERS)
    sense = lambda: source.choice(("<=", ">=", "<", ">", "="))
    match source.randrange(12):
        case 0:
            return source.choice(LP_WORDS)
        case 1:
            return source.choice(LP_OPERATORS)
        case 2:
            return f"{name()} {sense()} {number()}"
        case 3:
            return f"{number()} {sense()} {name()} {sense()} {number()}"
        case 4:
            return f"{name()}: {number()} {name()} + {name()} {sense()} {number()}"
        case 5:
            return f"{name()} {sense()} {source.choice(('', '-'))} inf"
        case 6:
            return f"{source.choice('+-')} {number()} {name()}"
        case 7:
            return f"{source.choice('+-')} {number()}"
        case 8:
            return f"{name()} free"
        case 9:
            return number()
        case 10:
            return name()
        case 11:
            return (
                f"{source.choice(('bounds', 'generals', 'binaries', 'semi'))} {name()} "
                f"{source.choice(('', '<= 1', 'free'))}"
            )


def changed_tokens(source, text):
    """A token changed, or some inserted."""
    tokens = LP_TOKEN.findall(text)
    names = [token.decode("latin-1") for token in set(tokens) if token[:1].isalpha() and token.isascii()] or ["x"]
    if source.random() < 0.4:
        places = [place for place, token in enumerate(tokens) if token[:1].isspace()] or [0]
        at = source.choice(places)
        if source.random() < 0.5:
            starts = [
                place
                for place, token in enumerate(tokens)
                if token.lower() in (b"bounds", b"bound", b"st", b"to", b"that", b"semi", b"gen", b"bin")
            ]
            at = source.choice(starts) + 1 if starts else at
        put = lp_tokens(source, names + list(NAMES))
        tokens.insert(at, f" {put}{source.choice((' ', chr(10)))}".encode("latin-1"))
        return b"".join(tokens)
    places = [place for place, token in enumerate(tokens) if not token[:1].isspace()]
    pool = source.choice((NUMBERS, NAMES, names, LP_WORDS, LP_OPERATORS))
    chosen = exchanged(source, [tokens[place] for place in places], [word.encode() for word in pool])
    return b" ".join(chosen) if source.random() < 0.2 else rejoined(tokens, places, chosen)


def rejoined(tokens, places, chosen):
    """The chosen tokens with the spaces and line ends that were between the old ones."""
    spaces = [b""] * (len(places) + 1)
    at = 0
    for place, token in enumerate(tokens):
        if token[:1].isspace():
            spaces[at] += token
        else:
            at += 1
    parts = []
    for number, token in enumerate(chosen):
        parts.append(spaces[number] if number < len(spaces) else b" ")
        parts.append(token)
    return b" ".join(parts) if len(chosen) > len(places) else b"".join(parts) + b"".join(spaces[len(chosen) :])


def assembled_lp(source):
    """A small file whose tokens are those of a model, with some others between them."""
    names = source.choice((("x", "y", "c1", "c"), NAMES))
    number = lambda: source.choice(NUMBERS[:17]).lstrip("+")
    parts = ["min x + y", "st", f"c: x + 2 y <= {number()}", f"{number()} <= x - y <= {number()}"]
    if source.random() < 0.8:
        parts.append("bounds")
        for _ in range(source.randrange(1, 3)):
            name = source.choice("xy")
            parts.append(
                source.choice(
                    (
                        f"{name} <= {number()}",
                        f"{name} >= {number()}",
                        f"{number()} <= {name} <= {number()}",
                        f"{name} free",
                        f"{name} = {number()}",
                    )
                )
            )
    for word in ("generals", "binaries", "semi"):
        if source.random() < 0.3:
            parts.append(f"{word} {source.choice(('x', 'y', 'x y'))}")
    parts.append("end")
    for _ in range(source.choice((0, 0, 1, 1, 2, 3))):
        parts.insert(source.randrange(len(parts) + 1), lp_tokens(source, names))
    return "".join(part + source.choice((" ", "\n", "\n")) for part in parts).encode("latin-1")


# ---- both


def mutated(source, form, text):
    """The file with one to three changes."""
    if source.random() < 0.002:
        return long_line(source, text)
    for _ in range(source.choice((1, 1, 1, 2, 3))):
        kind = source.random()
        if kind < 0.2:
            text = changed_byte(source, text or b"\n")
        elif kind < 0.4:
            text = changed_lines(source, text)
        else:
            text = changed_fields(source, text) if form == "mps" else changed_tokens(source, text)
    return text


def assembled(source, form):
    return assembled_mps(source) if form == "mps" else assembled_lp(source)
