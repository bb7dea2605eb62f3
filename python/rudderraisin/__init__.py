"""For clients and bots of the lobby: a view of what the server shows, its lines by kind, and a client over asyncio.

`View` folds the bytes that a client was sent, `reply` and `request` have a class for each line of the protocol, and
`Client` connects, logs in and asks. Views, the reading of replies and the printing of requests are a C library, whose
contracts are proved; docs/BOTS.md says what is not.
"""
from . import kinds, reply, request
from .client import Client, Denied, Refused, password_word
from .errors import CannotPrint, ConnectionLost, LineTooLong, LobbyError, NoMemory, PrintFault, ViewClosed
from .reply import Reply
from .request import Request
from .status import BattleStatus, Status
from .view import Battle, Bot, Channel, Member, Rectangle, Room, User, Users, View

__all__ = [
    "Battle", "BattleStatus", "Bot", "CannotPrint", "Channel", "Client", "ConnectionLost", "Denied", "LineTooLong",
    "LobbyError", "Member", "NoMemory", "PrintFault", "Rectangle", "Refused", "Reply", "Request", "Room", "Status",
    "User", "Users", "View", "ViewClosed", "kinds", "password_word", "reply", "request",
]
