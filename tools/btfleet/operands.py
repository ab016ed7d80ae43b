"""The recordings that words name: PATH, HOST:PATH and *:PATH.

A colon before any slash ends the name of a host, as it does for `scp`; a path that has one is written with `./` in
front.
"""
import os
from dataclasses import dataclass

from btfleet.faults import WORDS, Refused

EACH = "*"


@dataclass(frozen=True)
class Operand:
    """A recording as a word names it: the word, the host, which is empty where any may hold it, and the path."""

    word: str
    host: str
    path: str


def operand(word, has_scheduler):
    """What a word names. Without a scheduler all is on this machine, and a host is a name for what the recording
    answers."""
    head, colon, rest = word.partition(":")
    host, path = (head, rest) if colon and head and "/" not in head else ("", word)
    if not path:
        raise Refused(f"{word or 'an empty word'}: names no recording", WORDS)
    if host == EACH and not has_scheduler:
        raise Refused(f"{word}: {EACH} stands for the hosts of a scheduler, and there is no --scheduler", WORDS)
    if host and has_scheduler and not os.path.isabs(path):
        raise Refused(f"{word}: the path on another host is a whole one, from / on", WORDS)
    return Operand(word, host, os.path.abspath(path))


def operands(words, has_scheduler):
    """What all words name. None is named twice, since its numbers would be counted twice."""
    found = {}
    for word in words:
        named = operand(word, has_scheduler)
        if (named.host, named.path) in found:
            raise Refused(f"{word} is named twice", WORDS)
        found[named.host, named.path] = named
    return list(found.values())
