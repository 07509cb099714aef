"""Messages about files that are rejected: the line, its part that has the error, the cause that fits it, and what to
do.

``message`` makes the message for a path, an error and the text that has it; ``verdict`` reads the text first.
``_place`` finds the part of the line; the rules of ``_causes_mps``, ``_causes_lp`` and ``_causes_both`` recognise a
cause of docs/errors.tsv, and ``_details`` has what is added where no rule is needed. The line of an error and its kind
are proved; what is said beside them is a help for readers.
"""

from mpslp._messages._text import Message, message, verdict

__all__ = ["Message", "message", "verdict"]
