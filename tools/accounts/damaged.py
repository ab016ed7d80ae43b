"""True accounts with one thing wrong, each with the place where that shows, and why it is there.

The numbers of rules are those of rules.py. Where an entry is changed, left out, doubled or moved, the others keep their stamps, or all get those
that are due in the new order; the latter is said by `due`.
"""
import struct

from .layout import ADD, CHECK, CROSS, EMIT, GET, READ, SET, STOP, Step, account_bytes, place_of
from .rules import stamped
from .worked import BELOW, EXIT, FOUND, HIT, LOST, MAIN, MARKS, ONE, STOPS, SWEEPS, TABLES, TIES

MOST32, MOST64 = 2 ** 32 - 1, 2 ** 64 - 1
SECOND_RULE = "2: the program asks for another step"


def bad(offset):
    """The bytes are no account from this offset on."""
    return f"N1 bad account at byte {offset}"


def step(number):
    """This step cannot come next."""
    return f"N2 wrong step {number}"


def text(offset):
    """The text is another one from this offset on."""
    return f"N4 wrong text at byte {offset}"


UNFINISHED = "N3 unfinished"


def put(data, offset, new):
    """The bytes with others in place."""
    return data[:offset] + new + data[offset + len(new):]


def changed(account, number, **fields):
    """One entry has other fields."""
    steps = account.made()
    return [*steps[:number], steps[number].at(**fields), *steps[number + 1:]]


def without(account, *numbers):
    """Entries are left out."""
    return [entry for number, entry in enumerate(account.made()) if number not in numbers]


def doubled(account, number):
    """An entry stands there twice."""
    steps = account.made()
    return [*steps[:number + 1], *steps[number:]]


def moved(account, number, place):
    """An entry stands at another place of those that are left."""
    steps = account.made()
    taken = steps.pop(number)
    return [*steps[:place], taken, *steps[place:]]


def due(account, steps):
    """The entries with the stamps that are due in this order."""
    return stamped(account, steps)


def forms():
    """Parts that are cut off, too many, or of another length (rule 1). The account has its entry at 16, the text's length at 41, the text at 49,
    and 55 bytes."""
    data = ONE.data()
    for place in range(8):
        yield f"byte {place} of the magic", "1: the magic begins at 0", put(data, place, b"?"), bad(0)
    for size, place in ((0, 0), (7, 0), (8, 8), (15, 8), (16, 16), (19, 16), (20, 16), (27, 16), (28, 16), (29, 16), (32, 16), (33, 16),
                        (40, 16), (41, 41), (48, 41), (49, 49), (54, 49)):
        yield f"the first {size} bytes", "1: this part is not whole", data[:size], bad(place)
    yield ("no entry is counted", "1: the text's length is read at 16, and is greater than what is left; the text begins at 24",
           put(data, 8, struct.pack("<Q", 0)), bad(24))
    for count in (2, MOST64):
        yield f"{count} entries are counted", "1: the text's length is read as an actor, and is none", put(data, 8, struct.pack("<Q", count)), bad(41)
    for size, place in ((0, 49), (5, 54), (7, 49), (MOST64, 49)):
        yield (f"a text of {size} bytes is counted", "1: the text is not whole, or this is the first byte left over",
               put(data, 41, struct.pack("<Q", size)), bad(place))
    yield "a byte behind", "1: it is left over", data + b"\0", bad(55)
    yield "an account behind", "1: it is left over", data + data, bad(55)


def heads():
    """The actor, the stamp and the kind of an entry, and what belongs to an addition."""
    data = ONE.data()
    for actor in (2, 256, MOST32):
        yield f"actor {actor}", "1: there are the CPU and the main actor", put(data, 16, struct.pack("<I", actor)), bad(16)
    for kind in (0, 15, 16, 255):
        yield f"kind {kind}", "1: there is none", put(data, 28, bytes([kind])), bad(16)
    for kind in (1, 2, 3, 4, 5, 6):
        yield f"kind {kind}", "1: the map is an aggregation", put(data, 28, bytes([kind])), bad(16)
    yield ("kind 8", "1: a read of table 1, whose bytes end at 37; the text's length begins there, and is greater than what is left",
           put(data, 28, b"\x08"), bad(45))
    for number in (1, 31, MOST32):
        yield f"map {number}", "1: there is one map", put(data, 29, struct.pack("<I", number)), bad(16)


def additions():
    """An addition."""
    yield "the main actor's", "2: BEGIN and END ask nothing", changed(ONE, 0, actor=1), step(0)
    for stamp in (0, 2, MOST64):
        yield f"stamp {stamp}", "4: 1 is due", changed(ONE, 0, stamp=stamp), step(0)
    for number in (0, 2, -1):
        yield f"number {number}", SECOND_RULE, changed(ONE, 0, value=number), step(0)
    yield "twice", "2: the CPU is done", due(ONE, doubled(ONE, 0)), step(1)
    yield "twice with one stamp", "2: the CPU is done", doubled(ONE, 0), step(1)
    yield "left out", "6: the CPU is not done, which comes before the text", [], UNFINISHED


def texts():
    """Other texts (rule 7)."""
    for other, place in ((b"@: 2\n\n", 3), (b"", 0), (b"@: 1\n", 5), (b"@: 1\n\n\n", 6), (b"@: 1\n\0", 5), (b"!: 1\n\n", 0)):
        yield f"text {other}", "7: they differ here, or the shorter one ends", account_bytes(ONE.made(), other), text(place)
    yield "no entry and no text", "6: the CPU is not done", account_bytes([], b""), UNFINISHED


def other_texts():
    """Texts of longer runs."""
    yield MARKS, "the warning is left out", account_bytes(MARKS.made(), b"@: 2\n\n"), text(0)
    yield MARKS, "another count of lost events", account_bytes(MARKS.made(), MARKS.text.replace(b"3", b"4")), text(9)
    yield EXIT, "both lines the other way round", account_bytes(EXIT.made(), b"bye\ngo\n@n: 1\n\n"), text(0)
    yield EXIT, "the map is left out", account_bytes(EXIT.made(), b"go\nbye\n"), text(7)
    yield LOST, "the text of no lost update", account_bytes(LOST.made(), FOUND.text), text(4)
    yield FOUND, "the text of a lost update", account_bytes(FOUND.made(), LOST.text), text(4)
    yield TABLES, "the sum before it was set to zero", account_bytes(TABLES.made(), b"@c[p]: 2\n\n@t: 12\n\n"), text(14)


def lost():
    """Two CPUs and one map: gets of 0 and 1, sets of 0 and 1."""
    for number in range(4):
        stamp = number + 1
        yield f"stamp of {number} one more", f"4: {stamp} is due", changed(LOST, number, stamp=stamp + 1), step(number)
        yield f"stamp of {number} one less", f"4: {stamp} is due", changed(LOST, number, stamp=stamp - 1), step(number)
    yield "steps 1 and 2 the other way round", "4: after one step 2 is due, and there stands 3", moved(LOST, 1, 2), step(1)
    yield "set before get of the other", "2: then 1 is got, and 2 to be set", due(LOST, moved(LOST, 1, 2)), step(3)
    yield "the first set of 2", "2: 0 was got", changed(LOST, 2, value=2), step(2)
    yield "the last set of 2", "2: 0 was got", changed(LOST, 3, value=2), step(3)
    yield "a get left out", "2: CPU 0 has not got", due(LOST, without(LOST, 0)), step(1)
    yield "a set left out", "6: CPU 1 is not done", without(LOST, 3), UNFINISHED
    yield "a get doubled", "2: CPU 1 is to set", due(LOST, doubled(LOST, 1)), step(2)
    yield "a get of the main actor", "2: BEGIN and END ask nothing", due(LOST, changed(LOST, 0, actor=2)), step(0)
    yield "a get of the other CPU", "2: CPU 1 is to set", due(LOST, changed(LOST, 0, actor=1)), step(1)
    yield "a map that is not there", "1: there is one map", changed(LOST, 2, map=1), bad(place_of(LOST.made(), 2))
    yield "an addition to the map", "1: it is no aggregation", put_kind(LOST, 2, ADD), bad(place_of(LOST.made(), 2))


def put_kind(account, number, kind):
    """The account with another kind of one entry, and all other bytes as they stand."""
    return put(account.data(), place_of(account.made(), number) + 12, bytes([kind]))


def found():
    """The same where no update is lost."""
    yield "the last set of 1", "2: 1 was got", changed(FOUND, 3, value=1), step(3)
    yield "get of CPU 1 first", "2: then 0 is got, and 1 to be set", due(FOUND, moved(FOUND, 2, 0)), step(3)


def strings():
    """Strings in 64 bytes. The first entry begins at 16, its key's string at 33, and its value at 105; the second entry at 169."""
    data = SWEEPS.data()
    yield "a key without a zero", "1: a string ends in one", put(data, 33, b"k" * 64), bad(16)
    yield "a byte behind the zero of a key", "1: there are zeros behind a string", put(data, 40, b"x"), bad(16)
    yield "the last byte of a key", "1: there are zeros behind a string", put(data, 96, b"x"), bad(16)
    yield "a value without a zero", "1: a string ends in one", put(data, 105, b"v" * 64), bad(16)
    yield "a byte behind the zero of a value", "1: there are zeros behind a string", put(data, 140, b"x"), bad(16)
    yield "the last byte of a value", "1: there are zeros behind a string", put(data, 169 + 152, b"x"), bad(169)
    yield "a string before a zero first byte", "1: there are zeros behind a string", put(data, 33, b"\0k"), bad(16)


def sweeps():
    """A set of BEGIN (0) and of the CPU (1), reads (2 to 9), an item (10), zeroes (11 to 18), a delete (19), clears (20 to 27)."""
    steps = SWEEPS.made()
    for part in (8, 4096, MOST32):
        yield f"part {part} is read", "1: there are 8", changed(SWEEPS, 2, place=part), bad(place_of(steps, 2))
    yield "part 8 is set to zero", "1: there are 8", changed(SWEEPS, 18, place=8), bad(place_of(steps, 18))
    yield "part 8 is cleared", "1: there are 8", changed(SWEEPS, 27, place=8), bad(place_of(steps, 27))
    yield "a map that is not there is read", "1: there is one", changed(SWEEPS, 5, map=1), bad(place_of(steps, 5))
    yield "a table is read", "1: the map is no aggregation", put_kind(SWEEPS, 2, READ), bad(place_of(steps, 2))
    yield "a table is cleared", "1: the map is no aggregation", put_kind(SWEEPS, 20, 9), bad(place_of(steps, 20))
    yield "a table is set to zero", "1: the map is no aggregation", put_kind(SWEEPS, 11, 10), bad(place_of(steps, 11))
    yield "parts 1 and 2 the other way round", SECOND_RULE, due(SWEEPS, moved(SWEEPS, 3, 4)), step(3)
    yield "part 3 not read", SECOND_RULE, due(SWEEPS, without(SWEEPS, 5)), step(5)
    yield "part 7 not read", SECOND_RULE, due(SWEEPS, without(SWEEPS, 9)), step(9)
    yield "part 0 read twice", SECOND_RULE, due(SWEEPS, doubled(SWEEPS, 2)), step(3)
    yield "a clear for a read", SECOND_RULE, put_kind(SWEEPS, 4, 5), step(4)
    yield "a zero for a clear", SECOND_RULE, put_kind(SWEEPS, 22, 6), step(22)
    yield "no item", SECOND_RULE, due(SWEEPS, without(SWEEPS, 10)), step(10)
    yield "an item too many", SECOND_RULE, due(SWEEPS, doubled(SWEEPS, 10)), step(11)
    yield "another key deleted", SECOND_RULE, due(SWEEPS, changed(SWEEPS, 19, key=("k", 2))), step(19)
    yield "another string deleted", SECOND_RULE, due(SWEEPS, changed(SWEEPS, 19, key=("", 1))), step(19)
    yield "another value set", SECOND_RULE, changed(SWEEPS, 0, value="w"), step(0)
    yield "not deleted", SECOND_RULE, due(SWEEPS, without(SWEEPS, 19)), step(19)
    yield "the CPU before BEGIN", "3: BEGIN is not done", due(SWEEPS, moved(SWEEPS, 1, 0)), step(0)
    yield "END before the CPU", "3: the CPU is not done", due(SWEEPS, moved(SWEEPS, 1, 2)), step(1)
    yield "the CPU at the end", "3: the CPU is not done", due(SWEEPS, moved(SWEEPS, 1, 27)), step(1)
    yield "the CPU not at all", "3: the CPU is not done", due(SWEEPS, without(SWEEPS, 1)), step(1)
    yield "BEGIN not at all", "3: BEGIN is not done", due(SWEEPS, without(SWEEPS, 0)), step(0)
    yield "END not at all", "6: END is not done", steps[:2], UNFINISHED
    yield "the last clear left out", "6: END is not done", steps[:27], UNFINISHED
    yield "a clear too many", "2: END is done", due(SWEEPS, doubled(SWEEPS, 27)), step(28)
    yield "END by the CPU", "2: the CPU is done", changed(SWEEPS, 2, actor=0), step(2)


def tables():
    """Additions to @c of 0 and 1 (0, 1) and to @t (2, 3), crossings of 0 and 1 (4, 5), and by CPU 1 reads (6 to 8), an item (9), clears (10 to 12)
    and zeroes (13 to 15)."""
    steps = TABLES.made()
    yield "steps 0 and 1 the other way round", "5: at one stamp the table of CPU 0 is first", moved(TABLES, 0, 1), step(1)
    yield "steps 2 and 3 the other way round", "5: at one stamp the table of CPU 0 is first", moved(TABLES, 2, 3), step(3)
    yield "steps 1 and 2 the other way round", "5: stamps ascend", moved(TABLES, 1, 2), step(2)
    yield "table 3 is read", "1: there are 3", changed(TABLES, 8, place=3), bad(place_of(steps, 8))
    yield "table 3 is cleared", "1: there are 3", changed(TABLES, 12, place=3), bad(place_of(steps, 12))
    yield "table 2^32 - 1 is set to zero", "1: there are 3", changed(TABLES, 15, place=MOST32), bad(place_of(steps, 15))
    yield "table 1 twice", SECOND_RULE, due(TABLES, changed(TABLES, 6, place=1)), step(6)
    yield "map 2 is read", "1: there are 2", changed(TABLES, 6, map=2), bad(place_of(steps, 6))
    yield "the other map is read", SECOND_RULE, changed(TABLES, 6, map=1), step(6)
    yield "the other map is cleared", SECOND_RULE, changed(TABLES, 11, map=1), step(11)
    yield "the other map is set to zero", SECOND_RULE, changed(TABLES, 13, map=0), step(13)
    yield "an aggregation is got", "1: a get is of a map that is shared", put_kind(TABLES, 0, GET), bad(place_of(steps, 0))
    yield "parts of an aggregation are read", "1: parts are of a map that is shared", put_kind(TABLES, 6, 4), bad(place_of(steps, 6))
    for tick in (1, MOST32):
        yield f"tick {tick}", "1: there is one", changed(TABLES, 4, place=tick), bad(place_of(steps, 4))
    yield "the number of the other CPU", SECOND_RULE, changed(TABLES, 2, value=7), step(2)
    yield "another name", SECOND_RULE, changed(TABLES, 1, key=("q",)), step(1)
    yield "CPU 1 crosses first, and reads", "2: CPU 0 is the last to cross, so CPU 1 is done", due(TABLES, moved(TABLES, 4, 5)), step(6)
    yield "CPU 0 runs the body", "2: CPU 1 was the last to cross", due(TABLES, changed(TABLES, 6, actor=0)), step(6)
    yield "CPU 0 does not cross", "2: so CPU 1 was not the last", due(TABLES, without(TABLES, 4)), step(5)
    yield "CPU 1 does not cross", SECOND_RULE, due(TABLES, without(TABLES, 5)), step(5)
    yield "a CPU crosses twice", SECOND_RULE, due(TABLES, doubled(TABLES, 4)), step(5)
    yield "the main actor crosses", "2: BEGIN and END ask nothing", due(TABLES, changed(TABLES, 4, actor=2)), step(4)
    yield "no crossing at all", "6: both CPUs are not done", steps[:4], UNFINISHED
    yield "the crossing before the event", SECOND_RULE, due(TABLES, moved(TABLES, 4, 0)), step(0)
    yield "a table not set to zero", "6: CPU 1 is not done", steps[:15], UNFINISHED
    yield "the stamp of the last crossing", "4: the clock is at 3", changed(TABLES, 5, stamp=3), step(5)


def exits():
    """BEGIN's item (0), a check (1), a get, a set and a get (2 to 4), a stop (5), a check (6), and END's item (7)."""
    yield "no check", SECOND_RULE, due(EXIT, without(EXIT, 1)), step(1)
    yield "no stop", SECOND_RULE, due(EXIT, without(EXIT, 5)), step(5)
    yield "no last check", "3: the CPU is not done", due(EXIT, without(EXIT, 6)), step(6)
    yield "a stop too many", SECOND_RULE, due(EXIT, doubled(EXIT, 5)), step(6)
    yield "a check too many", "2: a stop was found, so the CPU is done", due(EXIT, doubled(EXIT, 6)), step(7)
    yield ("the second event after a stop", "2: a stop was found, so the CPU is done",
           due(EXIT, [*EXIT.made()[:7], Step(0, GET), *EXIT.made()[7:]]), step(7))
    yield "a stop for a check", SECOND_RULE, put_kind(EXIT, 1, STOP), step(1)
    yield "a check for a stop", SECOND_RULE, put_kind(EXIT, 5, CHECK), step(5)
    yield "a check for an item", SECOND_RULE, put_kind(EXIT, 0, CHECK), step(0)
    yield "an item for a check", SECOND_RULE, put_kind(EXIT, 6, EMIT), step(6)
    yield "BEGIN behind the check", "3: BEGIN is not done", due(EXIT, moved(EXIT, 0, 1)), step(0)
    yield "BEGIN left out", "3: BEGIN is not done", due(EXIT, without(EXIT, 0)), step(0)
    yield "END before the last check", "3: the CPU is not done", due(EXIT, moved(EXIT, 7, 6)), step(6)
    yield "END right behind BEGIN", "3: the CPU is not done", due(EXIT, moved(EXIT, 7, 1)), step(1)
    yield "END left out", "6: END is not done", without(EXIT, 7), UNFINISHED
    yield "END's item by the CPU", "2: the CPU is done", due(EXIT, changed(EXIT, 7, actor=0)), step(7)
    yield "an item behind END", "2: END is done", due(EXIT, doubled(EXIT, 7)), step(8)
    yield "the check at BEGIN's stamp", "4: BEGIN's step is before it", changed(EXIT, 1, stamp=1), step(1)
    yield "END at the CPU's stamp", "4: END's clock is that of all steps", changed(EXIT, 7, stamp=2), step(7)


def stops():
    """Checks of 0 and 1 (0, 1), stops of 0 and 1 (2, 3), END's item (4)."""
    yield "CPU 1 checks behind the stop", "2: it finds a stop, and is done", due(STOPS, moved(STOPS, 1, 2)), step(3)
    yield "CPU 1 does not stop", "3: CPU 1 is not done", due(STOPS, without(STOPS, 3)), step(3)
    yield "END left out", "6: END is not done", without(STOPS, 4), UNFINISHED
    yield "a map", "1: there is none", put_kind(STOPS, 1, GET), bad(place_of(STOPS.made(), 1))
    yield "a tick", "1: there is none", put_kind(STOPS, 1, CROSS), bad(place_of(STOPS.made(), 1))


def reads():
    """An addition (0), reads of the tables of the CPU and of the main actor (1, 2), a get and a set (3, 4)."""
    yield "the tables the other way round", SECOND_RULE, due(HIT, moved(HIT, 1, 2)), step(1)
    yield "one table alone", SECOND_RULE, due(HIT, without(HIT, 2)), step(2)
    yield "a read before the addition", SECOND_RULE, due(HIT, moved(HIT, 0, 1)), step(0)
    yield "the count is not reached", "6: the CPU reads 1, and goes on", HIT.made()[:3], UNFINISHED
    yield "the map for the aggregation", "1: a shared map has no tables", changed(HIT, 1, map=1), bad(place_of(HIT.made(), 1))
    yield "the main actor's table by its stamp alone", "4: the CPU's clock is at 2", changed(HIT, 2, stamp=1), step(2)


def others():
    """One thing of other accounts each."""
    yield MARKS, "the mark's item left out", "6: CPU 0 is not done", without(MARKS, 2), UNFINISHED
    yield MARKS, "the item by the other CPU", SECOND_RULE, due(MARKS, changed(MARKS, 2, actor=1)), step(2)
    yield MARKS, "the item before the event", SECOND_RULE, due(MARKS, moved(MARKS, 2, 0)), step(0)
    yield MARKS, "the item between both additions", "5: stamps ascend", moved(MARKS, 1, 2), step(2)
    yield MAIN, "END without BEGIN", "2: BEGIN's addition is taken for END's, and the read for BEGIN's", due(MAIN, without(MAIN, 0))[:1], UNFINISHED
    yield MAIN, "the addition by the CPU", "3: BEGIN is not done", changed(MAIN, 0, actor=0), step(0)
    yield MAIN, "the CPU's table twice", SECOND_RULE, due(MAIN, changed(MAIN, 3, place=0)), step(3)
    yield BELOW, "another value below 0", SECOND_RULE, changed(BELOW, 0, value=5), step(0)
    yield BELOW, "another key below 0", SECOND_RULE, due(BELOW, changed(BELOW, 1, key=(1,))), step(1)
    yield BELOW, "the key without its sign", SECOND_RULE, due(BELOW, changed(BELOW, 3, key=(MOST32,))), step(3)
    yield BELOW, "a delete for a get", SECOND_RULE, put_kind(BELOW, 1, 3), step(1)
    yield BELOW, "a key too short", "1: it takes a byte of the next entry, which then has another actor", cut_key(BELOW, 3), bad(place_of(BELOW.made(), 4))
    yield TIES, "steps 0 and 1 the other way round", "5: at one stamp shared maps come before tables", moved(TIES, 0, 1), step(1)
    yield TIES, "steps 2 and 3 the other way round", "5: at one stamp shared maps come before tables", moved(TIES, 2, 3), step(3)
    yield TIES, "the item at stamp 2", "4: its CPU's clock is at 2", changed(TIES, 4, stamp=2), step(4)
    yield TIES, "the item at stamp 4", "4: 3 is due, whatever others did", changed(TIES, 4, stamp=4), step(4)
    yield TIES, "the item first", "2: CPU 1 is to add", due(TIES, moved(TIES, 4, 0)), step(0)
    yield TIES, "the set of the other map", SECOND_RULE, due(TIES, changed(TIES, 0, map=2)), step(0)


def cut_key(account, number):
    """The account without the last byte of an entry."""
    end = place_of(account.made(), number + 1)
    return account.data()[:end - 1] + account.data()[end:]


def all_of():
    """Each account with its name, why it is wrong, its bytes, and what is told."""
    parts = ((ONE, forms), (ONE, heads), (ONE, additions), (ONE, texts), (LOST, lost), (FOUND, found), (SWEEPS, strings), (SWEEPS, sweeps),
             (TABLES, tables), (EXIT, exits), (STOPS, stops), (HIT, reads))
    listed = [(account, *row) for account, rows in parts for row in rows()]
    listed += [(account, name, "7: they differ here", data, wrong) for account, name, data, wrong in other_texts()]
    listed += others()
    for account, name, why, made, wrong in listed:
        yield account, name, why, made if isinstance(made, bytes) else account_bytes(made, account.text), wrong
