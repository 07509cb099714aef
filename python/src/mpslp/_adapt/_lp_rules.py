"""The rules of the objective and of rows: each takes a statement as read, and leaves it or writes it again."""

from __future__ import annotations

import re
from collections import Counter
from collections.abc import Sequence
from decimal import Decimal

from mpslp._adapt._changes import AdaptError
from mpslp._adapt._lp_context import Context
from mpslp._adapt._lp_forms import Form, form_of_row
from mpslp._adapt._lp_parts import FLIPPED, Item, Objective, Row, has_terms, negated, sense_of, spelled
from mpslp._adapt._lp_plain import Sides, names_in, parts_of, row_of, sides_of, sum_of, with_names, with_one_equals_sign
from mpslp._adapt._lp_print import Cell, labelled, literal_cells, printed, term_cells
from mpslp._adapt._lp_sections import ORDERED_SETS
from mpslp._adapt._lp_tokens import Token
from mpslp._text import _numbers

CONSTANT_OF_GLPSOL = re.compile(r"\\\* constant term = (-?)([0-9]+(?:\.[0-9]*)?(?:e[+-]?[0-9]+)?) \*\\")
NEGATED = r"\ the constant of the objective is negated: it was that of CoinUtils"
_RANGE_OF_QSOPT = re.compile(r"\\ RANGE \((-?[0-9./]+), (-?[0-9./]+)\)\s*")
_MOST_NOTES = 5
"""Of rows that look as bounds."""

_MOST_FORMS = 10_000

ONLY_ON_THE_RIGHT = "only after numbers on the right"
_ORDERED_SET = re.compile(r"sos[0-9]*", re.IGNORECASE)
_SETS = ("S1", "S2")


class ObjectiveRules:
    """The objective: terms of one column are added, and constants."""

    def __init__(self, context: Context, is_max: bool) -> None:
        self.context = context
        self.is_max = is_max

    def settle(self, objective: Objective) -> None:
        context, items = self.context, list(objective.items)
        context.take_columns(items)
        items += self.constant_of_glpsol(items)
        constants = [item for item in items if item.name is None]
        kinds = kinds_of_terms(items)
        if constants and not constants[-1].tokens:
            kinds.append("glpsol-constant")
        if len(constants) > 1:
            kinds.append("added-constants")
        is_negated = self.is_constant_of_coinutils(constants)
        if is_negated:
            kinds.append("objective-constant")
        if not kinds:
            if objective.label is not None:
                context.settle_name(objective.label)
            context.settle_items(items, False)
            return
        context.reject_punctuation(items)
        terms = [*terms_of(context, items, objective.first)]
        if constants:
            constant = context.sum_of(constants)
            terms.append(
                (signed(context.number_text(constant.copy_negate() if is_negated else constant, objective.first)), "")
            )
        label = None if objective.label is None else context.name_of(objective.label)
        cells = labelled(label, term_cells(terms))
        if is_negated:
            cells = [Cell(f"{NEGATED}\n", cells[0].text), *cells[1:]]
        if objective.is_empty:
            context.insert_after(objective.last, kinds, cells)
        else:
            context.replace(objective.first, objective.last, kinds, cells)

    def settle_plain(self, statement: Token) -> None:
        """The same for an objective that is read as a whole, which no rule changes."""
        body = parts_of(statement.text).body
        found = sum_of(body)
        self.context.take_plain(statement, body, found.names)
        if not found.constants:
            self.constant_of_glpsol([])  # a comment is noted

    def constant_of_glpsol(self, items: Sequence[Item]) -> list[Item]:
        """glpsol writes the constant of the objective into a comment."""
        context = self.context
        place = context.reader.token.start
        comments = [
            each for each in context.tokens.comments if each.start < place and CONSTANT_OF_GLPSOL.match(each.text)
        ]
        if not comments:
            return []
        comment, constants = comments[0], [item for item in items if item.name is None]
        if context.dialect is None and not constants:
            context.log.note(
                comment.line,
                "glpsol has the constant of the objective in this comment, which is ignored: --from glpsol adds it",
            )
        if context.dialect != "glpsol":
            return []
        found = CONSTANT_OF_GLPSOL.match(comment.text)
        assert found is not None
        number = Token("number", found[2], comment.start, comment.end, comment.line)
        constant = Item([], 1, -1 if found[1] else 1, [number])
        if len(comments) > 1 or (constants and context.sum_of(constants) != context.sum_of([constant])):
            raise AdaptError(comment.line, "a constant of the objective, and another one in a comment: keep one")
        return [] if constants else [constant]

    def is_constant_of_coinutils(self, constants: Sequence[Item]) -> bool:
        """CoinUtils subtracts the constant of an objective that is minimised."""
        if self.is_max or self.context.dialect != "coinutils" or not constants:
            return False
        return (
            all(comment.text.rstrip() != NEGATED for comment in self.context.tokens.comments)
            and self.context.sum_of(constants) != 0
        )


class RowRules:
    """Rows: all terms on the left, each column once, and one number on the right, or two outside."""

    def __init__(self, context: Context) -> None:
        self.context = context
        self.empty_rows: list[Row] = []
        self.lone_names: list[tuple[Row, Token]] = []
        self.previous: Row | None = None
        self.like_bounds: list[Row] = []
        """The first of the rows that look as bounds, for each place where some are."""
        self.open_like_bound: Row | None = None
        """The last of them, as long as no other row follows."""
        self.ends_like_bounds: list[Row] = []
        """Those of them after which no other row is in their section."""
        self.has_other_rows = False
        """Whether this section has rows that do not look as bounds."""
        self.has_labels: set[bool] = set()
        """Whether the rows that do not look as bounds have labels."""
        self.forms: dict[str, Form] = {}
        """How rows without their labels are written."""

    def settle(self, row: Row) -> None:
        """Leaves a row, or writes it again."""
        context = self.context
        self.take_like_bound(row)
        context.take_columns(row.sides[0])
        for side in row.sides[1:]:
            if has_terms(row.sides[0]):
                context.take_columns_on_the_right(side)
            else:
                context.take_columns(side)
        if self.settle_range_of_qsopt(row):
            return
        self.previous = row
        if len(row.relations) == 1 and not row.sides[0] and len(row.sides[1]) == 1 and row.sides[1][0].name is None:
            self.take_empty_row(row)
            return
        kinds: list[str] = []
        terms, outer = self.parted(row, kinds)
        kinds += self.kinds_of_sides(row, terms, outer, "terms-on-the-right" in kinds)
        if not kinds:
            self.keep(row, terms, outer)
            return
        for side in row.sides:
            context.reject_punctuation(side)
        context.replace(row.first, row.last, kinds, self.row_cells(row, terms, outer, "number-first" in kinds))

    def settle_plain(self, statement: Token) -> None:
        """The same for a row that is read as a whole."""
        label, body = parts_of(statement.text)
        sides = sides_of(body)
        if sides is not None and not label and is_one_term(sides):
            self.context.reader.has_spaces = True
            self.settle(row_of(statement, body))  # it may look as a bound
            return
        self.take_other_row(label != "")
        self.take_names(statement, label, body, sides)
        form = self.form_of(statement, body, sides)
        if form.kinds:
            self.write(statement, label, form)
        elif "[" in statement.text or "==" in statement.text:
            self.write_kept(statement, label, body)

    def take_names(self, statement: Token, label: str, body: str, sides: Sides | None) -> None:
        """Takes the columns of a row that is read as a whole."""
        context = self.context
        if sides is None or not sides.names_on_the_right:
            context.take_plain(statement, body, names_in(body) if sides is None else sides.names_on_the_left)
        elif not sides.names_on_the_left:
            context.take_plain(statement, body, sides.names_on_the_right)
        elif len(sides.right) == 1 and is_like_set(label, *sides.right[0]):
            raise AdaptError(statement.line, ORDERED_SETS)  # token by token, it is known whether it is one
        else:
            context.take_plain(statement, body[: body.index(sides.relation)], sides.names_on_the_left)
            context.take_plain_on_the_right(statement, sides)

    def form_of(self, statement: Token, body: str, sides: Sides | None) -> Form:
        """How a row is written that is read as a whole. Files that programs write have many rows that differ in their
        labels only.
        """
        form = self.forms.get(body)
        if form is None:
            form = form_of_row(sides, self.context.names.of) if sides is not None else None
            if form is None:
                return self.form_by_tokens(row_of(statement, body))
            if len(self.forms) < _MOST_FORMS:
                self.forms[body] = form
        return form

    def form_by_tokens(self, row: Row) -> Form:
        kinds: list[str] = []
        terms, outer = self.parted(row, kinds)
        kinds += self.kinds_of_sides(row, terms, outer, "terms-on-the-right" in kinds)
        if not kinds:
            return Form((), "")
        return Form(tuple(kinds), printed(self.row_cells(row, terms, outer, "number-first" in kinds)))

    def write(self, statement: Token, label: str, form: Form) -> None:
        """Writes a row again that is read as a whole."""
        context = self.context
        for given, name in form.renamed:
            context.log.add(statement.line, "name", given, name)
        label = context.written_name(statement.line, label) if "[" in label else label
        context.rewrite(statement, form.kinds, f"{label}: {form.text}" if label else form.text)

    def write_kept(self, statement: Token, label: str, body: str) -> None:
        """Writes a row that stays with the names and the relation that mpslp reads."""
        context, text = self.context, statement.text
        if "[" in label:
            context.written_name(statement.line, label)
        if "==" in body:
            context.log.add(statement.line + text.count("\n"), "symbol", "==", "=")
        for name in names_in(body):
            if "[" in name:
                context.written_name(statement.line, name)
        text = with_one_equals_sign(with_names(text, context.names.of))
        context.script.replace(statement.start, statement.end, text)

    def parted(self, row: Row, kinds: list[str]) -> tuple[list[Item], list[list[Item]]]:
        """The side with the terms, and those with numbers."""
        if len(row.relations) == 2:
            terms, outer = row.sides[1], [row.sides[0], row.sides[2]]
            if any(has_terms(side) or len(side) != 1 for side in outer) or not has_terms(terms):
                raise self.context.reader.error(
                    "in a row with two relations, terms are between them, and numbers outside", row.first
                )
            if [sense_of(relation) for relation in row.relations] not in (["<", "<"], [">", ">"]):
                raise self.context.reader.error(
                    "two relations in a row are both at most, or both at least: write two rows", row.first
                )
            return terms, outer
        terms, other = row.sides
        if not has_terms(terms) and has_terms(other):
            kinds.append("number-first")
            return other, [terms]
        if has_terms(other):
            self.note_lone_name(row, other)
            kinds.append("terms-on-the-right")
        if not has_terms(terms):
            raise self.context.reader.error("a row without terms", row.first)
        return terms, [other]

    def note_lone_name(self, row: Row, side: list[Item]) -> None:
        """Xpress has special ordered sets as sos1: x + y = S1."""
        item = side[0]
        if len(side) == 1 and item.name is not None and not item.numbers and not item.signs:
            if is_like_set(row.label.text if row.label is not None else "", "", "", "", item.name.text):
                self.lone_names.append((row, item.name))

    def kinds_of_sides(self, row: Row, terms: list[Item], outer: list[list[Item]], is_moved: bool) -> list[str]:
        kinds = []
        if not all(outer):
            raise self.context.reader.error("a side of this row is missing", row.first)
        if any(len(side) == 1 and side[0].name is None and side[0].signs > 1 for side in outer):
            raise self.context.reader.error("several signs before a number: write one", row.first)
        if any(len(side) != 1 for side in outer) and not is_moved:
            kinds.append("added-constants")
        if any(item.name is None for item in terms):
            kinds.append("constant-in-row")
        return kinds + kinds_of_terms(terms + [each for side in outer for each in side if each.name is not None])

    def keep(self, row: Row, terms: list[Item], outer: list[list[Item]]) -> None:
        """A row that mpslp reads as it is."""
        if row.label is not None:
            self.context.settle_name(row.label)
        for relation in row.relations:
            self.context.settle_relation(relation)
        self.context.settle_items(terms, False)
        for side in outer:
            self.context.settle_items(side, True)

    def row_cells(self, row: Row, terms: list[Item], outer: list[list[Item]], is_flipped: bool) -> list[Cell]:
        """The row with all terms on the left and one number on the right; between two numbers, with both changed."""
        context = self.context
        constant = context.sum_of([item for item in terms if item.name is None])
        moved = [negated(item) for side in outer for item in side if item.name is not None]
        body = term_cells(terms_of(context, [item for item in terms if item.name is not None] + moved, row.first))
        numbers = [self.limit_text([item for item in side if item.name is None], constant, row.first) for side in outer]
        label = None if row.label is None else context.name_of(row.label)
        relations = [sense_of(each) for each in row.relations]
        if len(relations) == 2:
            return labelled(label, ranged(numbers[0], relations[0], body, relations[1], numbers[1]))
        relation = FLIPPED[relations[0]] if is_flipped else relations[0]
        return labelled(label, [*body, Cell(" ", spelled(relation)), *literal_cells(numbers[0])])

    def limit_text(self, side: Sequence[Item], constant: Decimal, first: Token) -> str:
        """The limit of a row, less the constant among its terms; a limit that is infinite stays so."""
        infinite = [item for item in side if self.is_infinite_limit(item)]
        if infinite:
            if len(side) > 1:
                raise self.context.reader.error("infinity is added to a number", infinite[0].numbers[0])
            return "-inf" if infinite[0].sign < 0 else "inf"
        limit = _numbers.subtracted(self.context.sum_of(side), constant)
        if limit.copy_abs() >= _numbers.LARGE:
            raise AdaptError(
                first.line, "the side of this row would be 10^20 or more, which is infinite: scale the row"
            )
        return self.context.number_text(limit, first)

    def is_infinite_limit(self, item: Item) -> bool:
        return item.is_infinite or _numbers.is_infinite(self.context.literal(item.numbers[0], True))

    # ---- rows without terms

    def take_empty_row(self, row: Row) -> None:
        if row.label is None:
            raise self.context.reader.error(
                "a row without terms and without a label: a relation too many, or terms that are missing", row.first
            )
        if row.sides[1][0].signs > 1:
            raise self.context.reader.error("several signs before a number: write one", row.first)
        self.empty_rows.append(row)

    def settle_empty_rows(self) -> None:
        """A row without terms gets a term of 0."""
        column = self.context.first_column
        for row in self.empty_rows:
            assert row.label is not None
            if column is None:
                raise self.context.reader.error("a row without terms, in a file without columns", row.first)
            relation = Cell(" ", spelled(sense_of(row.relations[0])))
            side = literal_cells(self.context.side_literal(row.sides[1][0]))
            cells = labelled(self.context.name_of(row.label), [*term_cells([("0", column)]), relation, *side])
            self.context.replace(row.first, row.last, ["row-without-terms"], cells)

    # ---- what may not be meant

    def take_like_bound(self, row: Row) -> None:
        """Keeps where rows start that look as bounds."""
        if not is_like_bound(row):
            self.take_other_row(row.label is not None)
        elif self.open_like_bound is None:
            self.open_like_bound = row
            self.like_bounds.append(row)

    def take_other_row(self, has_label: bool) -> None:
        """Keeps that a row does not look as a bound."""
        self.has_other_rows = True
        self.has_labels.add(has_label)
        self.open_like_bound = None

    def end_section(self) -> None:
        """The rows of a section end, or those of all."""
        sections = self.context.reader.sections
        is_again = len(sections) > 1 and any(section.name == "rows" for section in sections[:-1])
        if is_again and sections[-2].name == "bounds" and not self.has_other_rows:
            word = sections[-1].first
            reason = (
                f"{word.text} within Bounds, and only rows that look as bounds after it: write Bounds before "
                "them, or remove it"
            )
            self.context.reader.unclear.append(AdaptError(word.line, reason))
        self.has_other_rows = False
        if self.open_like_bound is not None:
            self.ends_like_bounds.append(self.open_like_bound)
            self.open_like_bound = None

    def note_rows_like_bounds(self) -> None:
        """In a file that is changed, rows may be bounds whose header is lost: those at the end, and those among rows
        with labels.
        """
        context = self.context
        has_bounds = any(section.name == "bounds" for section in context.reader.sections)
        advice = "move it under Bounds" if has_bounds else "write Bounds before it"
        found = self.like_bounds if self.has_labels == {True} else self.ends_like_bounds
        for row in found[:_MOST_NOTES]:
            context.log.note(
                row.first.line, f"{context.source(row.first, row.last)} is a row: if it is meant as a bound, {advice}"
            )
        if len(found) > _MOST_NOTES:
            context.log.note(
                found[_MOST_NOTES].first.line, f"{len(found) - _MOST_NOTES} more rows that look as bounds, from here on"
            )

    def note_units(self) -> None:
        """In a file that is changed, columns that are only after numbers on the right may be units."""
        context, units = self.context, list(self.context.only_on_the_right.values())
        for name in units[:_MOST_NOTES]:
            context.log.note(name.line, f"{name.text} comes {ONLY_ON_THE_RIGHT}: a column, or a unit")
        if len(units) > _MOST_NOTES:
            context.log.note(
                units[_MOST_NOTES].line, f"{len(units) - _MOST_NOTES} more columns come {ONLY_ON_THE_RIGHT}"
            )

    # ---- what other programs have

    def settle_lone_names(self) -> None:
        """A row of which the right side is a name that is nowhere else is no row of columns, if it is called like a
        set.
        """
        if not self.lone_names:
            return
        lone = Counter(name.text for _, name in self.lone_names)
        counts = Counter(token.text for token in self.context.tokens.all if token.kind == "word")
        for row, name in self.lone_names:
            if counts[name.text] == lone[name.text]:
                raise AdaptError(row.first.line, ORDERED_SETS)

    def settle_range_of_qsopt(self, row: Row) -> bool:
        """QSopt_ex writes a row with two limits as two rows, with both limits in a comment between them."""
        before = self.previous
        if self.context.dialect != "qsopt" or before is None or row.label is not None or before.label is None:
            return False
        comments = self.context.tokens.comments_in(before.last.end, row.first.start)
        if len(comments) != 1 or _RANGE_OF_QSOPT.fullmatch(comments[0]) is None:
            return False
        lower, upper = (before, row) if sense_of(before.relations[0]) == ">" else (row, before)
        is_range = [sense_of(each.relations[0]) for each in (lower, upper)] == [">", "<"] and spelling(
            lower
        ) == spelling(upper)
        if not is_range or any(len(each.relations) != 1 or len(each.sides[1]) != 1 for each in (lower, upper)):
            return False
        low, high = (self.context.side_literal(each.sides[1][0]) for each in (lower, upper))
        body = term_cells(terms_of(self.context, before.sides[0], before.first))
        cells = labelled(self.context.name_of(before.label), ranged(low, "<", body, "<", high))
        self.context.replace(before.first, before.last, ["qsopt-range"], cells)
        self.context.script.replace(row.first.start, row.last.end, [])
        self.previous = None
        return True


def is_one_term(sides: Sides) -> bool:
    """Whether a row is a term and a number."""
    return len(sides.left) == len(sides.right) == 1 and len(sides.names_on_the_left + sides.names_on_the_right) == 1


def is_like_set(label: str, sign: str, number: str, star: str, name: str) -> bool:
    """Whether a row may be a special ordered set as Xpress has it, by its label and what is on its right."""
    return not (sign or number) and (name in _SETS or _ORDERED_SET.fullmatch(label) is not None)


def is_like_bound(row: Row) -> bool:
    """Whether a row looks as a bound: a column without a label and a coefficient, and numbers."""
    items = [item for side in row.sides for item in side]
    named = [item for item in items if item.name is not None]
    return (
        row.label is None
        and len(named) == 1
        and not named[0].numbers
        and not named[0].signs
        and len(items) == len(row.sides)
    )


def spelling(row: Row) -> list[tuple[int, str, str]]:
    """The terms on the left of a row, to compare them."""
    return [
        (item.sign, item.numbers[0].text if item.numbers else "", item.name.text if item.name else "")
        for item in row.sides[0]
    ]


def ranged(low: str, first: str, body: list[Cell], second: str, high: str) -> list[Cell]:
    return [*literal_cells(low), Cell(" ", spelled(first)), *body, Cell(" ", spelled(second)), *literal_cells(high)]


def signed(number: str) -> str:
    return number if number.startswith("-") else f"+{number}"


def kinds_of_terms(items: Sequence[Item]) -> list[str]:
    names = [item.name.text for item in items if item.name is not None]
    kinds = ["added-terms"] if len(set(names)) != len(names) else []
    return kinds + (["product"] if any(item.has_star for item in items) else [])


def terms_of(context: Context, items: Sequence[Item], first: Token) -> list[tuple[str, str]]:
    """Terms as a number with its sign and a name, with those of one column added."""
    groups: dict[str, list[Item]] = {}
    for item in items:
        if item.name is not None:
            groups.setdefault(item.name.text, []).append(item)
    terms = []
    for group in groups.values():
        item = group[0]
        assert item.name is not None
        name = context.name_of(item.name)
        if len(group) == 1:
            number = context.literal(item.numbers[0], False) if item.numbers else ""
            terms.append((("-" if item.sign < 0 else "+") + number, name))
        else:
            terms.append((signed(context.number_text(context.sum_of(group), first)), name))
    return terms
