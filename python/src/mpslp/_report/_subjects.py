"""The files that a page is about."""

from __future__ import annotations

import os
import warnings
from collections.abc import Sequence
from dataclasses import dataclass
from functools import cached_property

from mpslp import _mpslp
from mpslp._files._sources import Path, Text, naming, read
from mpslp._models._arrays import Arrays
from mpslp._models._model import Model, model_of
from mpslp._models._positions import Names, names_by_position
from mpslp._report._contents import Contents, contents_of
from mpslp._report._declared import Declared, declared_by
from mpslp._report._markup import path_text


@dataclass(frozen=True)
class Subject:
    """A file, and what is known of it."""

    label: str
    """What the file is called on the page."""
    path: str
    """The whole path as text."""
    text: Text
    model: Model
    digest: str
    arrays: Arrays
    contents: Contents
    declared: Declared

    @cached_property
    def order(self) -> Names:
        """The names of rows and columns in the order of the file."""
        return names_by_position(self.text, self.model)


def subjects_of(sources: Sequence[Path | Text]) -> list[Subject]:
    """Reads files, or takes their texts; raises ModelFileError, ValueError or OSError as ``mpslp.load`` does."""
    paths = [str(each.filename) if isinstance(each, Text) else each for each in sources]
    return [_subject(source, path, label) for source, path, label in zip(sources, paths, _labels(paths))]


def _subject(source: Path | Text, path: Path, label: str) -> Subject:
    import hashlib  # as in mpslp._models._model

    text = source if isinstance(source, Text) else read(source, None)
    with naming(text):
        model = model_of(_mpslp.load(text.content, text.format))
        digest = hashlib.sha256(_mpslp.canonical(text.content, text.format, _mpslp.MPS)).hexdigest()
    with warnings.catch_warnings():
        warnings.simplefilter("ignore", RuntimeWarning)  # of numbers that no double has, which are among the remarks
        arrays = model.arrays()
    return Subject(
        label,
        path_text(path),
        text,
        model,
        digest,
        arrays,
        contents_of(model, arrays),
        declared_by(text, model.objective),
    )


def _labels(paths: Sequence[Path]) -> Sequence[str]:
    """The last parts of the paths if they differ, else the paths, and if these are equal too, which file it is."""
    whole = [path_text(path) for path in paths]
    last = [os.path.basename(path) for path in whole]
    for labels in (last, whole):
        if len(set(labels)) == len(labels):
            return labels
    return ("the first file", "the second file")
