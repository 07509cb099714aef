"""The text of a merge: that of git, if it means the merged model; else that of the model, or a text with markers."""

from __future__ import annotations

import subprocess
import tempfile
from collections.abc import Iterator, Sequence
from pathlib import Path
from typing import NamedTuple

from mpslp import _mpslp
from mpslp._errors._faults import ModelFileError
from mpslp._errors._own_checks import OwnCheckError
from mpslp._files._sources import Text, naming
from mpslp._merge._call import merged_of
from mpslp._merge._conflicts import SIDES, Conflict
from mpslp._merge._markers import marked, marked_changes
from mpslp._merge._rules import Decided, Three
from mpslp._models._model import Model, model_of

_MOST_CONFLICTS = 127
"""The exit status of ``git merge-file`` is the number of conflicts, at most this one; a greater one is an error."""


class MergedText(NamedTuple):
    """What a merge writes."""

    content: bytes
    conflicts: tuple[Conflict, ...] = ()
    """The conflicts of the models."""
    is_marked: bool = False
    """Whether the text has markers: because of conflicts, or because the models merge and the texts do not."""


class Texts(NamedTuple):
    """The texts of a merge, the format of what is written, and how it is written."""

    base: Text
    ours: Text
    theirs: Text
    format: int
    marker_size: int

    def merged(self, is_canonical: bool) -> MergedText:
        """The merge of the texts.

        The merged text is canonical if that is asked for, or if the texts are, or have two formats.
        """
        models = Three(*map(_model, self[:3]))
        decided = Decided(models)
        merged = merged_of(models, decided)
        if is_canonical or any(each.format != self.format for each in self[:3]) or all(map(_is_canonical, self[:3])):
            return self._canonical(merged.model, decided)
        return self._kept(merged.model, decided)

    def _canonical(self, model: Model | None, decided: Decided) -> MergedText:
        if model is not None:
            return MergedText(self._stored(model))
        ours, theirs = (self._stored(decided.model_of(side)) for side in SIDES)
        return MergedText(marked(ours, theirs, self.marker_size), decided.conflicts, True)

    def _kept(self, model: Model | None, decided: Decided) -> MergedText:
        """The text of git, with its comments and its order."""
        content, is_marked = self.merged_by_git()
        if model is not None and is_marked:
            return MergedText(content, is_marked=True)
        if model is not None:
            return (
                MergedText(content)
                if self._means(content, model)
                else MergedText(self._marked(content, ()), is_marked=True)
            )
        return MergedText(self._marked(content, decided.conflicts), decided.conflicts, True)

    def _marked(self, content: bytes, conflicts: Sequence[Conflict]) -> bytes:
        names = frozenset(name for each in conflicts for name in each.names)
        return marked_changes(
            content, self.ours.content, self.theirs.content, names, self.format == _mpslp.MPS, self.marker_size
        )

    def _stored(self, model: Model) -> bytes:
        """The canonical text of a model, which is read again."""
        content = _mpslp.store(model._arrays, self.format)
        if not self._means(content, model):
            raise OwnCheckError
        return content

    def _means(self, content: bytes, model: Model) -> bool:
        try:
            return model_of(_mpslp.load(content, self.format)) == model
        except ModelFileError:
            return False

    def merged_by_git(self) -> tuple[bytes, bool]:
        """The texts merged line by line, and whether there are conflicts. Raises OSError if git is missing or fails."""
        with tempfile.TemporaryDirectory(prefix="mpslp-") as directory:
            paths = [Path(directory, name) for name in ("ours", "base", "theirs")]
            for path, text in zip(paths, (self.ours, self.base, self.theirs)):
                path.write_bytes(text.content)
            words = [
                "git",
                "merge-file",
                "-p",
                "-q",
                f"--marker-size={self.marker_size}",
                *_labels(),
                "--",
                *map(str, paths),
            ]
            done = subprocess.run(words, capture_output=True)
        if not 0 <= done.returncode <= _MOST_CONFLICTS:
            raise OSError(f"git merge-file: {done.stderr.decode(errors='replace').strip() or done.returncode}")
        return done.stdout, done.returncode > 0


def _labels() -> Iterator[str]:
    for label in (SIDES[0], "base", SIDES[1]):
        yield from ("-L", label)


def _model(text: Text) -> Model:
    with naming(text):
        return model_of(_mpslp.load(text.content, text.format))


def _is_canonical(text: Text) -> bool:
    return _mpslp.is_canonical(text.content, text.format)
