"""Names that are not legal in LP, written under legal names, and back."""

from mpslp._rename._call import Renamed, names_back, renamed
from mpslp._rename._names import RenameError, lp_name, original_name
from mpslp._rename._texts import GivenNames, name_from, table, table_of, words_back

__all__ = [
    "GivenNames",
    "RenameError",
    "Renamed",
    "lp_name",
    "name_from",
    "names_back",
    "original_name",
    "renamed",
    "table",
    "table_of",
    "words_back",
]
