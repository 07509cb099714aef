"""Models that are the same but for names: the map of names, the digest that does not depend on them, and the search for
the map.
"""

from mpslp._matching._call import UndecidedError, digest_any_names, same_but_for_names
from mpslp._matching._map import NameMap, renamed

__all__ = ["NameMap", "UndecidedError", "digest_any_names", "renamed", "same_but_for_names"]
