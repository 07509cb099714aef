"""Why a model file is rejected."""

from typing import TYPE_CHECKING, Any, Literal

from mpslp._errors._explanations import Explanation, explain

if TYPE_CHECKING:
    from mpslp._files._sources import Format, Source


class ModelFileError(ValueError):
    """A text defines no model, or its model has a name that is not legal in LP.

    As text it is the line that the program mpslp prints: ``line 7: DuplicateEntry``, ``file: NegativeUpper X``,
    ``row 3: NotLp``, and for the second of two texts ``second: file: MissingEnd``. If the text is that of a file, the
    path is its prefix: ``plan.mps: line 7: DuplicateEntry``.

    kind
        The kind of the error, such as ``DuplicateEntry``; docs/ERRORS.md explains each. ``NotLp`` for a name that is
        not legal in LP.
    line
        The line of the error, counted from 1; None for an error of the whole text.
    name
        The row or column for which an error of the whole text is reported, or the name that is not legal in LP; names
        are ASCII.
    place
        What has the name that is not legal in LP: ``"objective"``, ``"row"`` or ``"column"``; otherwise None.
    number
        The number of that row or column, counted from 0 in byte order of names; otherwise None.
    which
        ``"first"`` or ``"second"``: which of the two texts of ``same`` is rejected; None for the other calls.
    filename
        The path of the file; None for a text that is bytes.
    explanation
        The usual causes of this kind of error, and what to do about each: an :class:`Explanation`, which can be
        printed.
    message()
        What ``mpslp-tools`` prints: the line with a caret, the cause that fits it, and what to do.
    """

    kind: str
    line: int | None
    name: str | None
    place: Literal["objective", "row", "column"] | None
    number: int | None
    which: Literal["first", "second"] | None
    filename: str | None

    def __init__(
        self,
        kind: str,
        line: int | None = None,
        name: str | None = None,
        place: Literal["objective", "row", "column"] | None = None,
        number: int | None = None,
        which: Literal["first", "second"] | None = None,
        filename: str | None = None,
    ) -> None:
        super().__init__(kind, line, name, place, number, which, filename)
        self.kind = kind
        self.line = line
        self.name = name
        self.place = place
        self.number = number
        self.which = which
        self.filename = filename

    @property
    def explanation(self) -> Explanation:
        """The usual causes of this kind of error, and what to do about each."""
        return explain(self.kind)

    def message(self, source: "Source | None" = None, format: "Format | None" = None) -> str:
        """Returns what ``mpslp-tools`` prints: the place, the line with a caret, the cause that fits it, and what to
        do.

        ``source`` is the text that was rejected, and ``format`` its format. They may be left out if the text is that of
        a file, which is read again; for a text that is bytes only the first line is returned without them.
        """
        from mpslp._files._sources import read
        from mpslp._messages import message

        source = self.filename if source is None else source
        text = None if source is None else read(source, format)
        return str(message(self.filename or "<text>", self, text))

    def __reduce__(self) -> tuple[Any, ...]:
        # By its attributes: the path is set after the error is raised, and the arguments are those of the error.
        parts = (self.kind, self.line, self.name, self.place, self.number, self.which, self.filename)
        return type(self), parts, self.__dict__

    def __str__(self) -> str:
        name = (
            "" if self.name is None or self.place is not None else f" {self.name}"
        )  # the program does not print that one
        return f"{self._prefix()}{self._where()}: {self.kind}{name}"

    def _prefix(self) -> str:
        text = self.which if self.filename is None else self.filename
        return "" if text is None else f"{text}: "

    def _where(self) -> str:
        if self.place is not None:
            return self.place if self.number is None else f"{self.place} {self.number}"
        return "file" if self.line is None else f"line {self.line}"
