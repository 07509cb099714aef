"""What is accepted and rarely meant: a misspelt name after the rows, a sense that is in a comment only, and the like.

The rules read bytes and make no list of the words of a file, so that they take little time beside reading the model.
"""

from mpslp._warnings._call import KINDS, warnings_in, warnings_of
from mpslp._warnings._records import ModelFileWarning

__all__ = ["KINDS", "ModelFileWarning", "warnings_in", "warnings_of"]
