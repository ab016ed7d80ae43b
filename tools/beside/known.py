"""The differences that docs/DIFFERENCES.md explains: for each script what of its output differs, and the row or the part that says why."""
import re
from dataclasses import dataclass


@dataclass(frozen=True)
class Known:
    """A difference that is known: a script, a pattern of the line that tells it, and words of docs/DIFFERENCES.md that say why.

    With `is_less` it is one only where bpftrace has fewer than the program.
    """

    script: str
    pattern: str
    words: str
    is_less: bool = False

    def holds(self, script, difference):
        """Whether it is a difference of a script."""
        if self.script not in (script, "*") or not re.match(self.pattern, difference, re.DOTALL):
            return False
        counts = COUNTS.search(difference)
        return not self.is_less or counts is not None and int(counts[1]) < int(counts[2])


COUNTS = re.compile(r": live (\d+), here (\d+)$")
INTERRUPTS = "events in interrupts"
UNSIGNED = "of fields without a sign"
CLEARED = "a `count()` that was cleared, or to which nothing was added yet"
TICKS = "An `interval` ticks by the recording's time"
KNOWN = [
    Known("*", r"@\w*: its rows stand in another order", "order of rows"),
    Known("07_negative_offsets", r"@h2: ", "`hist` of great numbers"),
    Known("09_map_changes", r"@e\[\d+\]: live 1844674407\d+, here -\d+$", UNSIGNED),
    Known("28_bits_arithmetic", r"@i: live 1844674407\d+, here -\d+$", UNSIGNED),
    Known("11_clear_zero", r"@a: live 0, here nothing$", CLEARED),
    Known("47_ticks_hz", r"@ticks: live 0, here nothing$", CLEARED),
    Known("14_switches", r"@out\[burst, 120, (?:16|32|64)\]: ", "`prev_state` of a switch"),
    Known("21_interval_print", r"@: live (?:0 \| )*[\d |]+, here [\d |]+$", TICKS),
    Known("17_block_requests", r"@\w\[[^]]*\]: live \d+ \| \d+", "bytes behind the end of a string"),
    Known("34_softirqs", r"@r?\[\d+\]: ", INTERRUPTS, True),
    Known("43_wakeups_in_interrupts", r"@(?:n|w|pid\[\d+\]): ", INTERRUPTS, True),
    Known("50_unsigned_fields", r"@most: live nothing, here -\d+$", "the greatest of negative numbers"),
]


def words_for(script, difference):
    """The words of docs/DIFFERENCES.md that explain a difference of a script, or none."""
    return next((known.words for known in KNOWN if known.holds(script, difference)), None)


def unexplained(script, differences):
    """The differences of a script that no words explain."""
    return [difference for difference in differences if words_for(script, difference) is None]


def told(script, differences):
    """The words that explain a script's differences, each once."""
    return sorted({words_for(script, difference) or "" for difference in differences} - {""})
