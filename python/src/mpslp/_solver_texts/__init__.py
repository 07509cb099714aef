"""The texts that solvers read as a model."""

from mpslp._solver_texts._call import SolverError, SolverText, solver_text
from mpslp._solver_texts._solvers import SOLVERS

__all__ = ["SOLVERS", "SolverError", "SolverText", "solver_text"]
