"""The check of a merged model, before anybody gets it: by the comparison of models, which is proved."""

from __future__ import annotations

from mpslp._errors._own_checks import OwnCheckError
from mpslp._merge._items import Changes, applied, changes
from mpslp._merge._rules import Three, merged_by
from mpslp._models._model import Model


def require_merged(models: Three, of_ours: Changes, of_theirs: Changes, merged: Model) -> None:
    """Raises OwnCheckError unless the merged model differs from the base in what ours and theirs differ in, and in
    nothing else.

    What a side changes is all that it changes if and only if the base with these changes is equal to that side.
    """
    base, ours, theirs = models
    of_merged = changes(base, merged)
    if any(_with(base, found) != model for found, model in ((of_ours, ours), (of_theirs, theirs), (of_merged, merged))):
        raise OwnCheckError("the changes of a side are not all that it changes")
    if of_merged != merged_by(of_ours, of_theirs):
        raise OwnCheckError("the merged model does not have the changes of both sides")


def _with(base: Model, given: Changes) -> Model:
    try:
        return applied(base, given)
    except ValueError as error:
        raise OwnCheckError(f"the changes of a side are none: {error}") from error
