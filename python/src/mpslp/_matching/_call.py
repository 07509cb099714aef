"""The comparison of two models but for names."""

# Annotations are evaluated here: the exception appears as one of the package, which has fewer names.


from mpslp import _mpslp
from mpslp._files._sources import Format, Source, naming, read
from mpslp._matching._colours import digest_of, refined_together, shape_of
from mpslp._matching._errors import NotFound
from mpslp._matching._map import NameMap, renamed_arrays
from mpslp._matching._partners import Partners, partners_of, partners_of_map
from mpslp._matching._search import Pairs, pairs_of
from mpslp._matching._words import ShapeDifference, first_difference
from mpslp._models._differences import loaded
from mpslp._models._model import Model


class UndecidedError(RuntimeError):
    """The search gave up: whether two models are the same but for names is not known.

    As text it says what was found.
    """


def same_but_for_names(
    first: Model | Source,
    second: Model | Source,
    first_format: Format | None = None,
    second_format: Format | None = None,
) -> NameMap | None:
    """Returns the map from the names of the first model to those of the second if the models are the same but for
    names; else None.

    Each is a :class:`Model` or a text. The first one under the map is equal to the second one: that is checked. None is
    returned only if the models differ in what does not depend on names. If several maps fit, it is one of them.

    Raises UndecidedError if no map was found and no such difference either, which is rare if igraph is installed;
    ModelFileError if a text declares no model; ``which`` says which one.

    >>> mpslp.same_but_for_names(b"min x + 2 y\\nend\\n", b"min 2 b + a\\nend\\n", "lp", "lp").columns
    {'x': 'a', 'y': 'b'}
    """
    one, other = loaded(first, first_format, "first"), loaded(second, second_format, "second")
    found = match(one._arrays, other._arrays)
    return found if isinstance(found, NameMap) else None


def digest_any_names(source: Model | Source, format: Format | None = None) -> str:
    """Returns a SHA-256 that does not depend on names, as 64 hexadecimal digits; the source is a :class:`Model` or a
    text.

    Models that are the same but for names have the same digest. Models with the same digest are most likely the same
    but for names, and :func:`same_but_for_names` says whether they are.

    Raises ModelFileError if the text declares no model.

    >>> mpslp.digest_any_names(b"min x + 2 y\\nend\\n", "lp") == mpslp.digest_any_names(b"min 2 b + a\\nend\\n", "lp")
    True
    """
    if isinstance(source, Model):
        return digest_of(source._arrays)
    text = read(source, format)
    with naming(text):
        return digest_of(_mpslp.load(text.content, text.format))


def match(first: _mpslp.Arrays, second: _mpslp.Arrays) -> NameMap | ShapeDifference:
    """The map between two models, or the first difference that does not depend on names.

    Raises UndecidedError if it finds neither.
    """
    if first == second:
        return _identity(first)
    one, other = shape_of(first), shape_of(second)
    graphs = None if one.model != other.model else refined_together(one.graph, other.graph)
    if graphs is None:
        return first_difference(first, one, second, other)
    try:
        pairs = pairs_of(*graphs)
    except NotFound as error:
        raise UndecidedError(str(error)) from None
    return pairs if isinstance(pairs, ShapeDifference) else _checked(first, second, pairs)


def partners(first: _mpslp.Arrays, second: _mpslp.Arrays) -> Partners:
    """The partners of rows and columns: all, if the models are the same but for names; else those that are found."""
    try:
        found = match(first, second)
    except UndecidedError:
        return partners_of(first, second)
    return partners_of_map(found) if isinstance(found, NameMap) else partners_of(first, second)


def _identity(arrays: _mpslp.Arrays) -> NameMap:
    rows, columns = arrays.names()
    _, objective, _ = arrays.objective()
    return NameMap({objective: objective}, dict(zip(rows, rows)), dict(zip(columns, columns)))


def _checked(first: _mpslp.Arrays, second: _mpslp.Arrays, pairs: Pairs) -> NameMap:
    """The map of these pairs. Raises UndecidedError unless the first model under it is equal to the second one."""
    names = name_map(first, second, pairs)
    if renamed_arrays(first, names) != second:
        raise UndecidedError(
            "all that was compared is the same, but the map that was found does not make the models equal"
        )
    return names


def name_map(first: _mpslp.Arrays, second: _mpslp.Arrays, pairs: Pairs) -> NameMap:
    """The names of these pairs of rows and columns."""
    (rows, columns), (other_rows, other_columns) = first.names(), second.names()
    (_, objective, _), (_, other_objective, _) = first.objective(), second.objective()
    return NameMap(
        {objective: other_objective},
        {row: other_rows[pairs[number]] for number, row in enumerate(rows)},
        {column: other_columns[pairs[number] - len(rows)] for number, column in enumerate(columns, len(rows))},
    )
