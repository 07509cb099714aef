"""The texts of models of the package."""

# Apart from the other modules, which tests without the library use too.


from mpslp._models._model import Model, dumps
from mpslp._solver_texts._call import SolverError, SolverName, SolverText, solver_text
from mpslp._solver_texts._solvers import TextFormat

__all__ = ["SolverError", "SolverText", "text_for"]


def text_for(model: Model, solver: SolverName, format: TextFormat | None = None) -> SolverText:
    """Returns the text that a solver reads as the model, with warnings for what it does not hold.

    ``names`` of the text has the names that are other ones in it, with what is written for them. Without a format, the
    text is in the first one of the solver that holds the model. The text is read back and compared with the model
    before it is returned.

    Raises SolverError where the solver would find another optimum.

    >>> model = mpslp.Model(constant=5, columns=[mpslp.Column("x", upper=0.5)])
    >>> text = mpslp.text_for(model, "lp_solve")
    >>> text.splitlines()[-5:-1]
    [b'RHS', b'    RHS  obj  5', b'BOUNDS', b' UP  BND  x  0.5']
    """
    return solver_text(dumps(model, "mps"), solver, format)
