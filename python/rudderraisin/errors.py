"""What can go wrong, each kind under a name of its own. All are a `LobbyError`."""
from __future__ import annotations

import enum


class LobbyError(Exception):
    """What this package raises, and nothing else does."""


class NoMemory(LobbyError, MemoryError):
    """Memory was refused. Nothing has changed, and the call may be made again."""


class LineTooLong(LobbyError):
    """A line of the server has more than 20,479 bytes before its LF. Those before it are taken in, and none after."""


class ViewClosed(LobbyError):
    """The view was closed, or belongs to another thread."""


class PrintFault(enum.Enum):
    """Why no line of a client reads as a request (include/lobby.h). The value says it in words."""

    BAD_FIELDS = "an argument is not of its kind"           # also a surrogate that stands for no byte
    OUT_OF_RANGE = "a number is out of its range"           # an argument, or the message id
    NOTHING_LISTED = "a list is empty"
    WORD_SKIPPED = "an argument is left out before one that is there"
    REQUEST_TOO_LONG = "the line has more than 8,192 bytes"


class CannotPrint(LobbyError, ValueError):
    """No line of a client reads as this request: `fault` says why. Nothing was sent."""

    def __init__(self, fault: PrintFault) -> None:
        self.fault = fault
        super().__init__(fault.value)


class ConnectionLost(LobbyError, ConnectionError):
    """The connection has ended, and not by `Client.close`. What ended it, where that is known, is `__cause__`."""
