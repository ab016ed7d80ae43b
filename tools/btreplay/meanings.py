"""What each fault means and how it is mended, by its code. docs/LANGUAGE.md has the same with examples, under "Faults"."""

SCRIPT = {
    "X1": ("A byte here begins no word, number, string or mark of the language, or does not fit the number in which it stands.",
           "Take it out, or put it into a string."),
    "X2": ("A string does not end in its line.", 'Write the second "; a line break in a string is \\n.'),
    "X3": ("A comment that begins by /* does not end.", "Write */ behind it."),
    "X4": ("A number is above 2^64 - 1.", "Take a smaller one."),
    "X5": ('A backslash in a string is followed by something else than n, t, r, " or \\.', "Write \\\\ for a backslash."),
    "X6": ("A string has more than 1,024 bytes.", "Cut it, or print it in parts."),
    "P1": ("No script of the language begins with what stands up to here.",
           "Look whether a ; a bracket or a brace is missing in front of this place, or whether the word is one of bpftrace's that are left out."),
    "P2": ("Brackets and operators are nested deeper than 64 here.", "Put a part of the expression into a variable first."),
    "P3": ("This is the 65th probe, and a script has at most 64.", "Give several points to one probe, or use a pattern with *."),
    "A1": ("The recording has no tracepoint of this name.", "Take a name that it has (btrecord list RECORDING), or record this one."),
    "A2": ("The pattern fits no tracepoint of the recording.", "Take one that fits (btrecord list RECORDING), or record more."),
    "A3": ("An interval's number is 0, or its period is 0 or above 2^63 - 1 nanoseconds.", "Take another number: interval:ms:10, say."),
    "A4": ("Up to and with this point the intervals have more than 100,000 ticks over the recording's time.", "Take a longer period."),
    "A5": ("Up to and with this point the script has more than 4,096 bodies: one for each probe and each tracepoint that it fits.",
           "Narrow the patterns, or put the probes of one pattern together."),
    "Y1": ("The event has no field of this name.", "Take one of its fields."),
    "Y2": ("The field is there, but it is neither a number nor a string.", "Nothing can be read of it: take another field."),
    "Y3": ("The map holds something else: numbers, strings or one aggregation, as its first mention in the script decided.", "Take a second map."),
    "Y4": ("The key has more than 4 parts, or other parts than the map's first key in number or type.",
           "Give all keys of a map the same parts, as numbers or strings alike."),
    "Y5": ("The variable is not set earlier in this body. One of another probe is another variable.",
           "Set it first; to hand a value from probe to probe take a map."),
    "Y6": ("A rule of types is broken: a string where a number is wanted, or a number where a string is; a string of more than 63 bytes; "
           "turns of unroll out of 1 to 100; a number of print that is too small; a delete on an aggregation.",
           "Compare the two sides of the operator or the argument here; a field of characters and comm are strings, all else is a number."),
    "Y7": ("The format of printf has a conversion that does not exist, or its conversions and the arguments differ in number or type.",
           "Give one argument for each conversion: %d, %u, %x and %c take numbers, %s a string; a percent sign is %%."),
    "Y8": ("The numbers of lhist make no histogram.", "Write lhist(NUMBER, LEAST, GREATEST, STEP) with LEAST below GREATEST, and 1,000 steps at most."),
    "Y9": ("A histogram has no one number, so no expression reads it; it can be printed, cleared and set to zero.",
           "Keep beside it what is wanted, in another map: @sum = sum(args.v) beside @ = hist(args.v)."),
    "Y10": ("BEGIN, END and intervals have no event, so there are no args.", "Keep what is wanted in a map, in the probe of the event."),
    "Y11": ("This is the 33rd map, and a script has at most 32.", "Give one map another key."),
    "Y12": ("break and continue stand inside while or unroll alone.", "To end the body write return."),
    "K1": ("The variables of this body and the values that it has to keep at one time need more than 512 bytes; each string needs 64.",
           "Keep fewer strings at a time, or put some into maps."),
    "K2": ("The code of this body would have more than 4,096 slots.", "Split the body into several probes of the same point."),
}
RECORDING = {
    "C1": "The file ends inside a part: it was cut, or is no recording.",
    "C2": "The file begins with neither BTRACE01 nor BTRACE02, so it is no recording.",
    "C3": "There are no CPUs or more than 64, more than 4,096 formats or 1,048,576 events and marks, or the recording starts after it ends.",
    "C4": "The text of a format, counted from 0, is no format text of tracefs.",
    "C5": "An earlier format has the same ID, or the same system and name.",
    "C6": "The CPUs' numbers do not rise.",
    "C7": "An event or a mark is before the recording's start, before the one in front of it on its CPU, or after the end.",
    "C8": "No format has the ID in the first two bytes of an event.",
    "C9": "An event has fewer bytes than its format needs.",
    "C10": "Something follows the last event or mark.",
    "C11": "A system's name is not 1 to 64 letters, digits, _ or -.",
    "C12": "In a recording of version 2 something stands where an event or a mark begins that is neither.",
    "C13": "A mark tells that no event was lost.",
}
MENDED_RECORDING = "Recordings that btrecord writes have no such fault, so this file was damaged or made by another program: record or convert it again."
LONG = {
    "script too long": ("The script has more than 65,536 bytes.", "Cut it; where this is no script, look at the order of the operands."),
    "recording too long": ("The recording has more than 268,435,456 bytes.", "Record for a shorter time, or fewer tracepoints."),
}


def meaning_of(code, text):
    """What a fault means and how it is mended, as lines; none for a fault that is not known here."""
    if code in SCRIPT:
        return list(SCRIPT[code])
    if code in RECORDING:
        return [RECORDING[code], MENDED_RECORDING]
    return list(LONG.get(text, ()))
