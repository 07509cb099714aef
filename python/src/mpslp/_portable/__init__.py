"""What other programs may read differently in a file that is accepted."""

from mpslp._portable._call import KINDS, portability, remarks_of
from mpslp._portable._remarks import AGREED, PROGRAMS, Remark, grouped

__all__ = ["AGREED", "KINDS", "PROGRAMS", "Remark", "grouped", "portability", "remarks_of"]
