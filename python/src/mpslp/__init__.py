"""One canonical text for each linear or mixed-integer model in an MPS or LP file.

A text is given as bytes, in any object that has a buffer; as the path of its file, ``str`` or ``os.PathLike``; or as
that file, open for reading bytes. Files may be compressed: ``plan.mps.gz``, ``.bz2``, ``.xz`` or ``.zst``. A format is
``"mps"`` or ``"lp"``. It is optional for a path that ends in ``.mps`` or ``.lp``, in upper or lower case, before an
optional ending of a compression. For bytes, and for other paths, it is required. A given format takes precedence over
the ending.

>>> import mpslp
>>> mpslp.canonical(b"min 3.0 x + 2e0 y\\nend\\n", "lp")
b'Minimize\\n obj:\\n  + 3 x\\n  + 2 y\\nSubject To\\nEnd\\n'

>>> model = mpslp.load(b"max 3.0 x + 2e0 y\\nst limit: x + y <= 4\\nend\\n", "lp")
>>> model.rows["limit"].upper, model.columns["x"].cost
(Decimal('4'), Decimal('3'))

Texts that are rejected raise ModelFileError, which is a ValueError. Other exceptions: ValueError for a format that is
unknown or missing, and for parts that make no model; TypeError for what is neither bytes, a path nor an open binary
file; OSError if a file cannot be opened or read; and MemoryError. Calls may run in many threads at once, and do not
block the others.
"""

from importlib import import_module
from typing import TYPE_CHECKING, Any

from mpslp._mpslp import VERSION as __version__

from mpslp._calls import canonical, digest, is_canonical, same
from mpslp._errors._explanations import Cause, Explanation, explain
from mpslp._errors._faults import ModelFileError
from mpslp._files._sources import Format, Source
from mpslp._models._arrays import Arrays
from mpslp._models._model import Column, Kind, Model, Row, Sense, dump, dumps, from_arrays, load
from mpslp._models._numbers import Number, fraction

if TYPE_CHECKING:
    from mpslp._adapt import AdaptError, Adapted, Change, adapt
    from mpslp._exchange import from_milp, from_pulp, to_pulp
    from mpslp._format import formatted
    from mpslp._matching import NameMap, UndecidedError, digest_any_names, renamed, same_but_for_names
    from mpslp._merge import (
        ColumnItem,
        Conflict,
        EntryItem,
        Item,
        ItemValue,
        Merged,
        ModelItem,
        NameItem,
        RowItem,
        Sides,
        merge,
    )
    from mpslp._models._differences import (
        ColumnDifference,
        ColumnOnly,
        Difference,
        Differences,
        EntryDifference,
        ModelDifference,
        RowDifference,
        RowOnly,
        assert_same_model,
        diff,
    )
    from mpslp._portable import Remark, portability
    from mpslp._solver_texts._of_models import SolverError, SolverText, text_for
    from mpslp._survey import Survey, SurveyedFile, survey
    from mpslp._warnings import ModelFileWarning, warnings_of

__all__ = [
    "__version__",
    "AdaptError",
    "Adapted",
    "Arrays",
    "Cause",
    "Change",
    "Column",
    "ColumnDifference",
    "ColumnItem",
    "ColumnOnly",
    "Conflict",
    "Difference",
    "Differences",
    "EntryDifference",
    "EntryItem",
    "Explanation",
    "Format",
    "Item",
    "ItemValue",
    "Kind",
    "Merged",
    "Model",
    "ModelDifference",
    "ModelFileError",
    "ModelFileWarning",
    "ModelItem",
    "NameItem",
    "NameMap",
    "Number",
    "Remark",
    "Row",
    "RowDifference",
    "RowItem",
    "RowOnly",
    "Sense",
    "Sides",
    "SolverError",
    "SolverText",
    "Source",
    "Survey",
    "SurveyedFile",
    "UndecidedError",
    "assert_same_model",
    "adapt",
    "canonical",
    "diff",
    "digest",
    "digest_any_names",
    "dump",
    "dumps",
    "explain",
    "formatted",
    "fraction",
    "from_arrays",
    "from_milp",
    "from_pulp",
    "is_canonical",
    "load",
    "merge",
    "portability",
    "renamed",
    "same",
    "same_but_for_names",
    "survey",
    "text_for",
    "to_pulp",
    "warnings_of",
]

# Modules that many programs do not need, with their names here: each is imported when one of these is used for the
# first time.
_LATER = {
    "mpslp._adapt": ("AdaptError", "Adapted", "Change", "adapt"),
    "mpslp._models._differences": (
        "ColumnDifference",
        "ColumnOnly",
        "Difference",
        "Differences",
        "EntryDifference",
        "ModelDifference",
        "RowDifference",
        "RowOnly",
        "assert_same_model",
        "diff",
    ),
    "mpslp._exchange": ("from_milp", "from_pulp", "to_pulp"),
    "mpslp._format": ("formatted",),
    "mpslp._merge": (
        "ColumnItem",
        "Conflict",
        "EntryItem",
        "Item",
        "ItemValue",
        "Merged",
        "ModelItem",
        "NameItem",
        "RowItem",
        "Sides",
        "merge",
    ),
    "mpslp._matching": ("NameMap", "UndecidedError", "digest_any_names", "renamed", "same_but_for_names"),
    "mpslp._portable": ("Remark", "portability"),
    "mpslp._solver_texts._of_models": ("SolverError", "SolverText", "text_for"),
    "mpslp._survey": ("Survey", "SurveyedFile", "survey"),
    "mpslp._warnings": ("ModelFileWarning", "warnings_of"),
}


def _publish(name: str, part: Any) -> None:
    """Makes a part of another module one of this package: it is shown and pickled by the name under
    which it is found.
    """
    if isinstance(part, (type, type(canonical))):
        part.__module__ = __name__
    globals()[name] = part


if not TYPE_CHECKING:  # a checker of types would take every name for one of the package

    def __getattr__(name: str) -> Any:
        for module, names in _LATER.items():
            if name in names:
                imported = import_module(module)
                for each in names:
                    _publish(each, getattr(imported, each))
                return globals()[name]
        raise AttributeError(f"module {__name__!r} has no attribute {name!r}", name=name)

    def __dir__() -> list[str]:
        return sorted({*__all__, *(name for name in globals() if name.startswith("__"))})


for _name in sorted({*__all__} - {each for names in _LATER.values() for each in names}):
    _publish(_name, globals()[_name])
del _name
