"""Model files with other spacing, letter case of keywords, number text and line breaks, and everything else as it was
written.
"""

from mpslp._format._call import formatted, formatted_text

__all__ = ["formatted", "formatted_text"]
