"""What goes between the command and a host: one line of JSON, and behind it bytes as they stand. None of it is code, and nothing of it is unpickled.
"""
import json

# The form of what is sent. A host of another form is told, and not asked.
FORM = 1


class Unreadable(Exception):
    """Why a message is none."""


def coded(fields, content=b""):
    """A message of fields, which JSON can hold, and bytes."""
    return json.dumps(fields).encode() + b"\n" + content


def read(message):
    """The fields and the bytes of a message; Unreadable where it is none."""
    if not isinstance(message, (bytes, bytearray)):
        raise Unreadable(f"what came is no message, but {type(message).__name__}")
    line, _, content = bytes(message).partition(b"\n")
    try:
        fields = json.loads(line)
    except (ValueError, RecursionError) as fault:
        raise Unreadable(f"what came is no message: {fault}") from fault
    if not isinstance(fields, dict):
        raise Unreadable("what came is no message of fields")
    return fields, content
