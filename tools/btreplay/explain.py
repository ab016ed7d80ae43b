"""`explain SCRIPT RECORDING`: what a refusal means and how it is mended, what else is refused behind it, and of a script that is accepted what is
worth knowing of it."""
import difflib

from btreplay.further import faults_of
from btreplay.hints import at_refusal, is_known
from btreplay.meanings import meaning_of
from btreplay.notes import notes_of
from btreplay.recorded import SEEN, formats_of, head_of_file
from btreplay.refusal import pointed, refusal_in
from btreplay.script import probes_of
from btreplay.tokens import NUMBER, POINT, offset_of, place_of, tokens_of

MOST_FIELDS = 40
MORE = "What stands behind this can be looked at once it is mended: explain again."


def word_at(text, at):
    """The token at an offset, as text."""
    return next((token.text for token in tokens_of(text) if token.at <= at < token.at + len(token.text)), "")


def about_tracepoint(text, at, head):
    """The names of the recording's tracepoints that are nearest to a point's."""
    import tracepoints
    point = word_at(text, at)
    name = point.partition(":")[2].strip(":")
    pairs = [tuple(format.name.split(":")) for format in head.formats]
    names = tracepoints.near(name.replace("*", ""), pairs)
    system = [f"{one}:{event}" for one, event in pairs if one == name.split(":")[0]]
    if names:
        return [f"Nearest in the recording: {', '.join(f'tracepoint:{one}' for one in names)}"]
    if system:
        return [f"Of {name.split(':')[0]} the recording has: {listed(sorted(system), 10)}"]
    return [f"The recording has tracepoints of: {', '.join(sorted({one for one, _ in pairs})) or 'nothing'}"]


def listed(names, most):
    """So many names, and how many there are beside them."""
    return ", ".join(names[:most]) + (f" and {len(names) - most} more" if len(names) > most else "")


def about_fields(text, at, head):
    """The fields of the first event of the probe that lacks a field, or has it in a form that cannot be read."""
    name = word_at(text, at)
    for format in formats_of(text, at, head):
        fields = {field.name.decode(): field for field in format.layout.fields if field.name}
        if name in fields and fields[name].kind in SEEN:
            continue
        if name in fields:
            return [f"{format.name} declares it as: {fields[name].declaration.decode(errors='replace')}"]
        near = difflib.get_close_matches(name, fields, 3, 0.6)
        own = [f"{field} ({SEEN[found.kind]})" for field, found in fields.items() if found.kind in SEEN and not field.startswith("common_")]
        lines = [f"{format.name} has: {listed(own, MOST_FIELDS) or 'no fields of its own'}"]
        return ([f"Did you mean {' or '.join(f'args.{one}' for one in near)}?"] if near else []) + lines
    return []


def explained(refusal, text, recording):
    """What can be said of a refusal, as lines: where, what it means, how it is mended, and what the recording has instead."""
    lines = []
    at = offset_of(text, refusal.line, refusal.column) if text is not None and refusal.line else None
    if at is not None:
        lines += pointed(text, refusal.line, refusal.column)
    meaning = meaning_of(refusal.code, refusal.text)
    head = head_of_file(recording)
    hints = at_refusal(text, at, head) if at is not None and refusal.code in ("X1", "P1") else []
    # What is known of the very word stands in the place of what is said of all.
    lines += meaning[:1] + [f"Here: {hint}" for hint in hints] if hints else meaning
    if at is not None and head and refusal.code in ("A1", "A2"):
        lines += about_tracepoint(text, at, head)
    elif at is not None and head and refusal.code in ("Y1", "Y2"):
        lines += about_fields(text, at, head)
    return lines


def line_of(fault, text, shown, head):
    """The line of a fault behind the first: its place, and what is known of the very word, or else its code, its meaning, and what there is instead."""
    line, column = place_of(text, fault.at)
    if fault.hints:
        word = next((f"{token.text}: " for token in tokens_of(text) if token.at == fault.at and (token.kind in (NUMBER, POINT) or is_known(token))), "")
        return f"{shown}:{line}:{column}: {word}{'; '.join(fault.hints)}"
    about = about_tracepoint(text, fault.at, head) if head and fault.code in ("A1", "A2") else []
    about += about_fields(text, fault.at, head) if head and fault.code in ("Y1", "Y2") else []
    return f"{shown}:{line}:{column}: {fault.code} {fault.text}: {' '.join(meaning_of(fault.code, fault.text)[:1] + about)}"


def explanation(ended, text, names, recording, checks=None):
    """All lines for a script's check: of a refusal by its name and of the faults behind it, or of an accepted script the notes on it. The names are
    those of the script as the program has it and as the words do; `checks` asks the program for the faults behind the first, where there is one."""
    script, shown = names
    if ended.status == 0 and text is not None:
        return notes_of(text, probes_of(text), recording, shown, False) or ["This script prints the same in every order of CPUs."]
    refusal = refusal_in(ended.told, [shown, recording])
    if refusal is None:
        return []
    lines = explained(refusal, text if refusal.name == shown else None, recording)
    if refusal.name == shown and refusal.line and text is not None and checks is not None:
        found, is_all = faults_of(text, checks.refusal, checks.head)
        further = [line_of(fault, text, shown, checks.head) for fault in found[1:]]
        lines += ["Refused as well:", *further] if further else []
        lines += [] if is_all else [MORE]
    return lines
