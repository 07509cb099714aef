"""The calls on whole texts."""

from __future__ import annotations

from mpslp import _mpslp
from mpslp._errors._illegal_names import naming_what_is_not_legal
from mpslp._files._sources import Format, Source, format_number, naming, read


def canonical(source: Source, from_format: Format | None = None, to_format: Format | None = None) -> bytes:
    """Returns the one canonical text of the model that a text declares.

    ``from_format`` is the format of the source; it is optional for a path that ends in ``.mps`` or ``.lp``.
    ``to_format`` is that of the canonical text; by default it is the format of the source.

    Raises ModelFileError if the text declares no model, or if a name is not legal in LP and ``to_format`` is LP; its
    ``name`` is that name.

    >>> mpslp.canonical(b"max 2.50 x\\nend\\n", "lp")
    b'Maximize\\n obj:\\n  + 2.5 x\\nSubject To\\nEnd\\n'
    """
    to_number = None if to_format is None else format_number(to_format)
    text = read(source, from_format)
    with naming(text), naming_what_is_not_legal(lambda: _mpslp.load(text.content, text.format)):
        return _mpslp.canonical(text.content, text.format, text.format if to_number is None else to_number)


def same(
    first: Source, second: Source, first_format: Format | None = None, second_format: Format | None = None
) -> bool:
    """Returns whether two texts, each in its format, declare the same model.

    The format is optional for a path that ends in ``.mps`` or ``.lp``.

    Raises ModelFileError if a text declares no model; ``which`` says which one.

    >>> mpslp.same(b"min x + 2 y\\nend\\n", b"min 2.0 y + x\\nend\\n", "lp", "lp")
    True
    """
    first_text = read(first, first_format)
    second_text = read(second, second_format)
    with naming(first_text, second_text):
        return _mpslp.same(first_text.content, first_text.format, second_text.content, second_text.format)


def is_canonical(source: Source, format: Format | None = None) -> bool:
    """Returns whether a text is the canonical text, in its own format, of the model that it declares.

    The format is optional for a path that ends in ``.mps`` or ``.lp``.

    Raises ModelFileError if the text declares no model.

    >>> mpslp.is_canonical(b"min x\\nend\\n", "lp")
    False
    """
    text = read(source, format)
    with naming(text):
        return _mpslp.is_canonical(text.content, text.format)


def digest(source: Source, format: Format | None = None) -> str:
    """Returns the SHA-256 of the canonical MPS text of the model that a text declares, as 64 hexadecimal digits.

    Every text of one model has the same, in either format; it is the ``digest`` of the :class:`Model`.

    The format may be left out for a path that ends in ``.mps`` or ``.lp``.

    Raises ModelFileError where the text declares no model.

    >>> mpslp.digest(b"min x + 2 y\\nend\\n", "lp") == mpslp.digest(b"min 2.0 y + x\\nend\\n", "lp")
    True
    """
    import hashlib  # it breaks further interpreters of CPython 3.12.1, and is wanted here only

    return hashlib.sha256(canonical(source, format, "mps")).hexdigest()
