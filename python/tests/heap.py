"""How many bytes of the C heap are in use."""

import ctypes


class _Counts(ctypes.Structure):
    _fields_ = [
        (name, ctypes.c_size_t)
        for name in (
            "arena",
            "ordblks",
            "smblks",
            "hblks",
            "hblkhd",
            "usmblks",
            "fsmblks",
            "uordblks",
            "fordblks",
            "keepcost",
        )
    ]


_mallinfo2 = ctypes.CDLL(None).mallinfo2
_mallinfo2.restype = _Counts


def bytes_in_use():
    """Those of all blocks that were asked for and not freed, also of those that have pages of their own."""
    counts = _mallinfo2()
    return counts.uordblks + counts.hblkhd
