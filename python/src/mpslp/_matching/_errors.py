"""What the search raises."""


class NotFound(Exception):
    """The search gives up. As text it says why."""
