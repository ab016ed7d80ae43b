"""Sizes as words have them."""
import re

UNITS = {"": 1, "K": 1 << 10, "M": 1 << 20, "G": 1 << 30, "T": 1 << 40}


def bytes_of(word):
    """So many bytes as a word says: a number, and K, M, G or T behind it. ValueError where it says none."""
    found = re.fullmatch(r"(\d{1,15})([KMGT]?)", str(word))
    if not found:
        raise ValueError(f"{word} is no size, as 2G")
    return int(found[1]) * UNITS[found[2]]
