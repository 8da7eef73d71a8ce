"""The errors that calls of the library return, as exceptions."""

from typing import Optional


class VersError(Exception):
    """A fault of the library. Each one is also of a kind that Python has."""


class Unknown(VersError, TypeError):
    """The list has no such query or change."""


class Vacant(VersError, ValueError):
    """The object has no list: its maker has failed."""


class Refused(VersError, ValueError):
    """The arguments are refused."""


class Occupied(VersError, ValueError):
    """The object has a list already."""


class NoMemory(VersError, MemoryError):
    """An allocation failed, or the list would be too long."""


class Shared(VersError, ValueError):
    """The list is being read by another thread, so it can't change."""


class TooShort(Refused):
    """There are fewer bytes than a saved form has, or than its head says."""


class NotOurs(Refused):
    """The bytes do not begin as a saved form does."""


class OtherVersion(Refused):
    """The saved form is of another version."""


class OtherKind(Refused):
    """The bytes are the saved form of another kind of list."""


class BadLength(Refused):
    """No list of this kind has that length, or more bytes follow."""


class BadSum(Refused):
    """The sum is not that of the words before it."""


class BadPadding(Refused):
    """A bit is set past the end of the list."""


class NotAscending(Refused):
    """The numbers do not ascend as those of the list do."""


class NotAText(Refused):
    """No text has the column and the rows of a saved form."""


# by the library's statuses from 2 on: each fault, and its message if the call gives no reason
FAULTS = (
    (Unknown, "the list has no such query or change"),
    (Vacant, "the object has no list, since its constructor failed"),
    (Refused, "the numbers that were passed are refused"),
    (Occupied, "the object has a list already"),
    (NoMemory, "there is no memory, or the list would be too long"),
    (Shared, "the list is being read by another thread, so it can't change"),
    (TooShort, "the bytes are fewer than a saved form has, or than its head says"),
    (NotOurs, "the bytes do not begin as a saved form does"),
    (OtherVersion, "the saved form is of another version"),
    (OtherKind, "the bytes are the saved form of another kind of list"),
    (BadLength, "no such list is as long, or there are bytes after it"),
    (BadSum, "the sum is not that of the words before it"),
    (BadPadding, "a bit is set past the end of the list"),
    (NotAscending, "the numbers do not ascend as those of the list do"),
    (NotAText, "no text has the column and the rows of a saved form"),
)


def fault(status: int, text: Optional[str] = None) -> VersError:
    """Returns the exception of a status that is neither done nor absent, with a text or with that of the status."""
    kind, reason = FAULTS[status - 2]
    return kind(text or reason)
