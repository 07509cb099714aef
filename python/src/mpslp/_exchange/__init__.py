"""Models of other packages of Python: PuLP, and scipy's milp."""

from mpslp._exchange._milp import from_milp
from mpslp._exchange._pulp import from_pulp, to_pulp

__all__ = ["from_milp", "from_pulp", "to_pulp"]
