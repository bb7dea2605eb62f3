"""What players wrote, for people to read: no byte of it does anything to a terminal or a page."""
import unicodedata


def text(data):
    """Bytes as text. What is not UTF-8, and each character that is not seen or moves others, is shown as an escape."""
    said = data.decode("utf-8", "backslashreplace") if isinstance(data, bytes) else data
    return "".join(it if is_seen(it) else f"\\u{ord(it):04x}" for it in said)


def is_seen(character):
    return character == " " or unicodedata.category(character)[0] not in "CZ"


def without_secrets(command, rest):
    """What stands behind a command, without the words of battles and what a login names."""
    words = rest.split(b" ")
    if command == b"JOINBATTLE" and len(words) > 1:
        words[1:] = [b"*"] * len(words[1:])
    elif command == b"OPENBATTLE" and len(words) > 2 and words[2] != b"*":
        words[2] = b"(a password)"
    elif command == b"LOGIN":
        words = words[:1]
    return b" ".join(words)
