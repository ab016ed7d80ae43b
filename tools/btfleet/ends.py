"""What the bodies of `END` do with maps, and what of it they do for sure.

A call is made for sure where its body has no predicate, where it stands in no block inside that body, and behind no
loop, which may come to its limit, and no `exit` and `return`.
"""
from dataclasses import dataclass

from btreplay.script import ADD, CHANGE, CLOSING, OPENING, SET
from btreplay.tokens import MARK, WORD

LEAVING = {"while", "unroll", "return", "exit"}
# What may put a row into a map.
ADDING = {SET, CHANGE, ADD}


@dataclass(frozen=True)
class Use:
    """A mention of a map: the probe, the mention, the word of the call whose first argument it is, the texts of the
    other arguments, from where to where these stand in the script with the commas before them, and whether it is
    done for sure."""

    probe: object
    mention: object
    call: str = ""
    arguments: tuple = ()
    span: tuple = ()
    is_sure: bool = False


def sure_tokens(tokens):
    """For each token of a probe, whether what stands there is done for sure."""
    depth, may_have_left, found = 0, False, []
    for token in tokens:
        if token.kind == MARK:
            may_have_left = may_have_left or depth == 0 and token.text == "/"
            depth += (token.text == "{") - (token.text == "}")
        may_have_left = may_have_left or token.kind == WORD and token.text in LEAVING
        found.append(depth == 1 and not may_have_left)
    return found


def call_around(tokens, place):
    """The word of the call whose first argument is the map at a place, its other arguments, and where these stand;
    else nothing."""
    if place < 2 or tokens[place - 1].text != "(" or tokens[place - 2].kind != WORD:
        return "", (), ()
    arguments, depth = [], 1
    for token in tokens[place + 1:]:
        if token.kind == MARK:
            depth += (token.text in OPENING) - (token.text in CLOSING)
        if depth == 0:
            texts = tuple("".join(part.text for part in argument[1:]) for argument in arguments)
            return tokens[place - 2].text, texts, (arguments[0][0].at, token.at) if arguments else ()
        if depth == 1 and token.text == "," and token.kind == MARK:
            arguments.append([])
        if arguments:
            arguments[-1].append(token)
    return "", (), ()


def uses_in(probe):
    """The mentions of maps in a probe, with what stands around each."""
    is_sure = sure_tokens(probe.tokens)
    places = {token.at: place for place, token in enumerate(probe.tokens)}
    for mention in probe.mentions:
        place = places[mention.at]
        yield Use(probe, mention, *call_around(probe.tokens, place), is_sure[place])


def runs_at_end(use):
    """Whether a use is in a body of END."""
    return "END" in use.probe.kinds()


def runs_at_end_alone(use):
    """Whether a use is in a body of END, and in no other."""
    return use.probe.kinds() == {"END"}


def is_emptied(uses):
    """Whether a map has no rows at the end of every run, by its uses in the order of the script: none puts a row
    into it, or END clears it for sure, and nothing behind that puts one."""
    if not any(use.mention.does in ADDING for use in uses):
        return True
    at_end = [use for use in uses if runs_at_end(use)]
    clears = [at for at, use in enumerate(at_end) if use.call == "clear" and use.is_sure]
    return bool(clears) and not any(use.mention.does in ADDING for use in at_end[clears[-1]:])


def changed_printed(uses):
    """The first use in END that changes a map between its prints there, or behind them by more than `clear` or
    `zero`; or none."""
    at_end = [use for use in uses if runs_at_end(use)]
    prints = [at for at, use in enumerate(at_end) if use.call == "print"]
    for at, use in enumerate(at_end):
        if prints and prints[0] < at and use.call != "print" and (at < prints[-1] or use.mention.does in ADDING):
            return use
    return None
