"""Models spelled in many ways, as MPS and as LP: each text declares the model."""

from .models import ONE, ZERO, Number, is_zero, same

INFINITE = ("1e20", "1e30", "100000000000000000000", "9.9E+99")
SENSES = {"<": ("<", "<=", "=<"), ">": (">", ">=", "=>"), "=": ("=",)}


def spelled_size(source, number):
    """A literal without a sign."""
    size = number.size()
    if is_zero(size):
        return source.choice(("0", "0.0", ".0", "0.", "0e7", "00"))
    digits, exponent = str(size.mantissa), size.exponent
    style = source.random()
    if style < 0.4:
        return size.text()
    if style < 0.6:
        zeros = source.randint(0, 4)
        return f"{digits}{'0' * zeros}{source.choice('eE')}{exponent - zeros:+d}"
    if style < 0.8:
        cut = source.randint(0, len(digits))
        tail = "0" * source.randint(0, 3)
        point = f"{digits[:cut]}.{digits[cut:]}{tail}"
        return f"{point}{source.choice('eE')}{exponent + len(digits) - cut}"
    return "0" * source.randint(1, 3) + size.text()


def spelled(source, number):
    """A literal with its sign."""
    if number.mantissa < 0:
        return "-" + spelled_size(source, number)
    return source.choice(("", "", "+")) + spelled_size(source, number)


# ---- MPS


class MpsText:
    """Lines of MPS text, with spaces and comments between them."""

    def __init__(self, source):
        self.source = source
        self.lines = []

    def noise(self):
        if self.source.random() < 0.1:
            self.lines.append(self.source.choice(("", "   ", "\t", "* a comment", "*\tNAME  X", "* ENDATA")))

    def header(self, *words):
        self.noise()
        self.lines.append("  ".join(words) + self.source.choice(("", "", " ", "\t")))

    def data(self, *fields):
        self.noise()
        gap = lambda: self.source.choice((" ", "  ", "\t", "      ", " \t "))
        self.lines.append("".join(gap() + field for field in fields) + self.source.choice(("", "", "  ")))

    def text(self):
        end = self.source.choice(("\n", "\r\n"))
        text = end.join(self.lines)
        following = self.source.choice(("", end, end + "whatever\x80 follows" + end))
        return (text + following).encode("latin-1")


def mps_rows(source, model):
    """Each row's letter, optional right-hand side and optional range."""
    forms = {}
    for name, row in model.rows.items():
        lower, upper = row.lower, row.upper
        if lower is None and upper is None:
            forms[name] = source.choice(
                (("N", None, None), ("L", source.choice(INFINITE), None), ("G", "-" + source.choice(INFINITE), None))
            )
        elif lower is None:
            forms[name] = ("L", upper, None)
        elif upper is None:
            forms[name] = ("G", lower, None)
        elif same(lower, upper):
            forms[name] = source.choice(
                (("E", lower, None), ("E", lower, ZERO), ("L", lower, ZERO), ("G", lower, ZERO))
            )
        else:
            distance = upper.minus(lower)
            turned = source.choice((distance, distance.negated()))
            forms[name] = source.choice(
                (("L", upper, turned), ("G", lower, turned), ("E", lower, distance), ("E", upper, distance.negated()))
            )
    return forms


def mps_column_lines(source, out, model, name):
    values = dict(model.columns[name].values)
    for row in [model.objective] + list(model.rows):
        if row not in values and source.random() < 0.1:
            values[row] = ZERO
    if not values:
        values[model.objective] = ZERO
    pairs = [(row, spelled(source, value)) for row, value in values.items()]
    source.shuffle(pairs)
    while pairs:
        line = [name]
        for _ in range(source.choice((1, 2, 2))):
            if pairs:
                line += pairs.pop()
        out.data(*line)


def in_marker_part(source, column):
    """Whether an integer column is between markers; it must be if it has no bound whose type could make it integer."""
    return (column.lower is None and column.upper is None) or source.random() < 0.6


def mps_bound_forms(source, column, is_marked):
    """Types and values of the bounds of a column, which declare its bounds and what its place in COLUMNS does not."""
    lower, upper = column.lower, column.upper
    if column.kind == "semi":
        forms = [("SC", upper)]
        if not is_zero(lower) or source.random() < 0.3:
            forms.append(("LO", lower))
        return forms
    unit = is_zero(lower) and same(upper, ONE)
    if column.kind == "integer" and unit:
        if is_marked and source.random() < 0.4:
            return []
        if source.random() < 0.5:
            return [("BV", None)]
    if same(lower, upper) and (is_marked or column.kind != "integer") and source.random() < 0.5:
        return [("FX", upper)]
    if lower is None and upper is None and source.random() < 0.5:
        return [("FR", None)]
    wants_kind = column.kind == "integer" and not is_marked
    forms = []
    if lower is None:
        forms.append(source.choice((("MI", None), ("LO", "-" + source.choice(INFINITE)))))
    elif not is_zero(lower) or source.random() < 0.2 or (wants_kind and upper is None):
        forms.append(("LI" if wants_kind else "LO", lower))
    if upper is None:
        if (is_marked and not forms) or source.random() < 0.2:
            forms.append(source.choice((("PL", None), ("UP", source.choice(INFINITE)))))
    else:
        is_lower_integer = any(kind == "LI" for kind, _ in forms)
        forms.append(("UI" if wants_kind and not is_lower_integer else "UP", upper))
    if wants_kind and not any(kind in ("LI", "UI") for kind, _ in forms):
        forms = [("LI" if kind == "LO" else kind, value) for kind, value in forms]
    return forms


def spelled_value(source, value):
    return value if isinstance(value, str) else spelled(source, value)


def mps_text(source, model):
    out = MpsText(source)
    if source.random() < 0.8:
        out.header(*("NAME",) + source.choice(((), ("ANY",), ("a", "b", "FREE"))))
    by_name = source.random() < 0.3
    sections = ["sense"] if model.maximise or source.random() < 0.2 else []
    sections += ["objective"] if by_name else []
    source.shuffle(sections)
    for section in sections:
        word = model.objective
        if section == "sense":
            word = source.choice(("MAX", "MAXIMIZE") if model.maximise else ("MIN", "MINIMIZE"))
        keyword = "OBJSENSE" if section == "sense" else "OBJNAME"
        if source.random() < 0.5:
            out.header(keyword, word)
        else:
            out.header(keyword)
            out.data(word)
    forms = mps_rows(source, model)
    out.header("ROWS")
    rows = list(model.rows)
    source.shuffle(rows)
    free = [name for name in rows if forms[name][0] == "N"]
    first = rows.index(free[0]) if free and not by_name else len(rows)
    rows.insert(source.randint(0, first), model.objective)
    for name in rows:
        out.data("N" if name == model.objective else forms[name][0], name)
    out.header("COLUMNS")
    names = list(model.columns)
    source.shuffle(names)
    marked = {
        name for name in names if model.columns[name].kind == "integer" and in_marker_part(source, model.columns[name])
    }
    is_open = False
    for name in names:
        if (name in marked) != is_open:
            is_open = not is_open
            out.data("M", "'MARKER'", "'INTORG'" if is_open else "'INTEND'")
        mps_column_lines(source, out, model, name)
    if is_open and source.random() < 0.5:
        out.data("M", "'MARKER'", "'INTEND'")
    parts = ["RHS", "RANGES", "BOUNDS"]
    source.shuffle(parts)
    for part in parts:
        mps_part(source, out, model, forms, marked, part)
    out.header("ENDATA")
    return out.text()


def mps_part(source, out, model, forms, marked, part):
    front = source.choice(((), ("SET",), ("RHS",)))
    if part == "BOUNDS":
        lines = []
        for name, column in model.columns.items():
            for kind, value in mps_bound_forms(source, column, name in marked):
                fields = (kind,) + front + (name,)
                if value is not None:
                    fields += (spelled_value(source, value),)
                elif front and source.random() < 0.3:
                    fields += ("9",)
                lines.append(fields)
    else:
        pairs = []
        for name, (letter, side, distance) in forms.items():
            value = side if part == "RHS" else distance
            is_none = part == "RHS" and isinstance(value, Number) and is_zero(value)
            if value is None or (is_none and source.random() < 0.7):
                continue
            pairs.append((name, spelled_value(source, value)))
        if part == "RHS" and (not is_zero(model.constant) or source.random() < 0.2):
            pairs.append((model.objective, spelled(source, model.constant.negated())))
        source.shuffle(pairs)
        lines = []
        while pairs:
            fields = front
            for _ in range(source.choice((1, 2))):
                if pairs:
                    fields += pairs.pop()
            lines.append(fields)
    source.shuffle(lines)
    if lines or source.random() < 0.3:
        out.header(part)
        for fields in lines:
            out.data(*fields)


# ---- LP


def cased(source, word):
    return source.choice((word, word.upper(), word.capitalize(), "".join(source.choice((c, c.upper())) for c in word)))


class Tokens:
    """Tokens of LP text, each with whether it is a word, a number or an operator."""

    def __init__(self, source):
        self.source = source
        self.items = []

    def word(self, text):
        self.items.append(("word", text))

    def keyword(self, *texts):
        for text in self.source.choice(texts).split():
            self.word(cased(self.source, text))

    def number(self, size):
        self.items.append(("number", size))

    def operator(self, text):
        self.items.append(("operator", text))

    def sense(self, kind):
        self.operator(self.source.choice(SENSES[kind]))

    def side(self, value):
        """The value on either side of a relation: a number, or "-" or "+" for an infinity of that sign."""
        if isinstance(value, Number):
            if value.mantissa < 0:
                self.operator("-")
            elif self.source.random() < 0.1:
                self.operator("+")
            self.number(spelled_size(self.source, value))
        else:
            if value == "-":
                self.operator("-")
            elif self.source.random() < 0.2:
                self.operator("+")
            if self.source.random() < 0.6:
                self.word(cased(self.source, self.source.choice(("inf", "infinity"))))
            else:
                self.number(self.source.choice(INFINITE))

    def text(self):
        parts, before = [], None
        for kind, text in self.items:
            merges = (
                before in ("word", "number") and kind in ("word", "number") and (before, kind) != ("number", "word")
            )
            if before is not None and (merges or self.source.random() < 0.8):
                parts.append(self.gap())
            parts.append(text)
            before = kind
        following = self.source.choice(("", "\n", " \\ the end\n", "\nanything \x80 at all\n"))
        text = "".join(parts)
        if self.source.random() < 0.3:
            text = text.replace("\n", "\r\n")
        return (self.source.choice(("", "\\ a model\n", "\n\n")) + text + following).encode("latin-1")

    def gap(self):
        return self.source.choice((" ", " ", " ", "  ", "\t", "\n", "\n ", " \\ \x80 a comment: x >= 1\n"))


def lp_item(source, tokens, value, name, is_first):
    minus = value.mantissa < 0
    signs = []
    if not is_first or minus or source.random() < 0.3:
        signs = [source.choice("+-") for _ in range(source.choice((0, 0, 0, 1, 2)))]
        odd = signs.count("-") % 2 == 1
        signs.append("-" if odd != minus else "+")
    for sign in signs:
        tokens.operator(sign)
    if name is None or value.size() != ONE or source.random() < 0.3:
        tokens.number(spelled_size(source, value))
    if name is not None:
        tokens.word(name)


def lp_items(source, tokens, items):
    for number, (value, name) in enumerate(items):
        lp_item(source, tokens, value, name, number == 0)


def lp_row_sides(source, tokens, row, terms):
    lower, upper = row.lower, row.upper
    low, high = lower if lower is not None else "-", upper if upper is not None else "+"
    forms = [("<", low, high), (">", high, low)]
    if same(lower, upper):
        forms += [("=", None, upper)] * 3
    elif lower is None and upper is not None:
        forms += [("<", None, upper)] * 3
    elif upper is None:
        forms += [(">", None, low)] * 3
    if lower is None and upper is None:
        forms += [("<", None, "+")]
    sense, left, right = source.choice(forms)
    if left is not None:
        tokens.side(left)
        tokens.sense(sense)
    lp_items(source, tokens, terms)
    tokens.sense(sense)
    tokens.side(right)


def lp_bound_forms(source, name, column, is_binary):
    """Relations and values of the bounds of a column."""
    lower, upper = column.lower, column.upper
    low, high = lower if lower is not None else "-", upper if upper is not None else "+"
    if is_binary:
        return []
    if same(lower, upper):
        return [source.choice((("=", upper), ("between", low, high)))]
    if lower is None and upper is None:
        return [source.choice((("free",), ("between", low, high)))]
    wants_lower = not is_zero(lower)
    wants_upper = upper is not None
    if wants_lower and wants_upper and source.random() < 0.6:
        return [("between", low, high)]
    forms = []
    if wants_lower or source.random() < 0.2:
        forms.append((">", low))
    if wants_upper or source.random() < 0.2:
        forms.append(("<", high))
    source.shuffle(forms)
    return forms


def lp_bound(source, tokens, name, form):
    kind = form[0]
    if kind == "free":
        tokens.word(name)
        tokens.word(cased(source, "free"))
    elif kind == "between":
        sense, left, right = source.choice((("<", form[1], form[2]), (">", form[2], form[1])))
        tokens.side(left)
        tokens.sense(sense)
        tokens.word(name)
        tokens.sense(sense)
        tokens.side(right)
    elif source.random() < 0.5:
        tokens.word(name)
        tokens.sense(kind)
        tokens.side(form[1])
    else:
        tokens.side(form[1])
        tokens.sense({"<": ">", ">": "<", "=": "="}[kind])
        tokens.word(name)


def lp_text(source, model):
    tokens = Tokens(source)
    mentioned = set()
    if model.maximise:
        tokens.keyword("max", "maximize", "maximum")
    else:
        tokens.keyword("min", "minimize", "minimum")
    terms = lp_terms(source, model, model.objective)
    for name, column in model.columns.items():
        if not column.values and source.random() < 0.5 and name not in {term for _, term in terms}:
            terms.append((ZERO, name))
    source.shuffle(terms)
    if model.objective != "obj" or source.random() < 0.5:
        tokens.word(model.objective)
        tokens.operator(":")
    if not is_zero(model.constant) or source.random() < 0.1:
        terms.insert(source.randint(0, len(terms)), (model.constant, None))
    lp_items(source, tokens, terms)
    mentioned.update(name for _, name in terms)
    rows = list(model.rows)
    source.shuffle(rows)
    if rows or source.random() < 0.5:
        tokens.keyword("st", "s.t.", "st.", "subject to", "such that")
    for number, name in enumerate(rows):
        terms = lp_terms(source, model, name) or [(ZERO, source.choice(list(model.columns)))]
        source.shuffle(terms)
        mentioned.update(term for _, term in terms)
        if name != f"c{number + 1}" or source.random() < 0.5:
            tokens.word(name)
            tokens.operator(":")
        lp_row_sides(source, tokens, model.rows[name], terms)
    lp_sections(source, tokens, model, mentioned)
    tokens.keyword("end")
    return tokens.text()


def lp_terms(source, model, row):
    terms = [(column.values[row], name) for name, column in model.columns.items() if row in column.values]
    others = [name for name, column in model.columns.items() if row not in column.values]
    return terms + [(ZERO, name) for name in others if source.random() < 0.05]


def lp_sections(source, tokens, model, mentioned):
    columns = list(model.columns.items())
    source.shuffle(columns)
    binaries = {
        name
        for name, column in columns
        if column.kind == "integer" and is_zero(column.lower) and same(column.upper, ONE) and source.random() < 0.6
    }
    generals = [name for name, column in columns if column.kind == "integer" and name not in binaries]
    semis = [name for name, column in columns if column.kind == "semi"]
    bounds = []
    for name, column in columns:
        forms = lp_bound_forms(source, name, column, name in binaries)
        if not forms and name not in mentioned and name not in binaries and name not in generals and name not in semis:
            forms = [(">", ZERO)]
        bounds += [(name, form) for form in forms]
    sections = ["bounds", "generals", "binaries", "semis"]
    source.shuffle(sections)
    for section in sections:
        if section == "bounds" and (bounds or source.random() < 0.2):
            tokens.keyword("bound", "bounds")
            for name, form in bounds:
                lp_bound(source, tokens, name, form)
        elif section == "generals" and (generals or source.random() < 0.1):
            tokens.keyword("general", "generals", "gen", "integer", "integers", "int")
            for name in generals:
                tokens.word(name)
        elif section == "binaries" and (binaries or source.random() < 0.1):
            tokens.keyword("binary", "binaries", "bin")
            for name in sorted(binaries):
                tokens.word(name)
        elif section == "semis" and (semis or source.random() < 0.1):
            form = source.choice(("semis", "semi", "semi-continuous"))
            if form == "semi-continuous":
                tokens.word(cased(source, "semi"))
                tokens.operator("-")
                tokens.word(cased(source, "continuous"))
            else:
                tokens.word(cased(source, form))
            for name in semis:
                tokens.word(name)
