"""Looks right behind the calls that may change a thread's user: the events of them are looked through as they come."""
from ring import Records, take_records
from users import CALLS

# So many threads wait for a look at most.
MOST_WAITING = 1 << 16


class Behind:
    """Which threads have called what may change their user, since they were looked at."""

    def __init__(self, formats, shape, looks):
        names = {f"sys_exit_{call}" for call in CALLS} | {"sys_exit"}
        self.numbers = {format.layout.number.to_bytes(2, "little") for format in formats if format.layout.name.decode() in names}
        self.shape = shape
        self.looks = looks
        self.waiting = {}

    def see(self, page):
        """Notes the threads of a page's events."""
        found = Records([0], [0], [b""])
        take_records(found, page, self.shape)
        for thread, record in zip(found.threads, found.payloads):
            if record[:2] in self.numbers and len(self.waiting) < MOST_WAITING:
                self.waiting[thread] = None

    def look(self, is_due=lambda: False):
        """Looks at those threads, the first first, until time is up."""
        while self.waiting and not is_due():
            thread = next(iter(self.waiting))
            del self.waiting[thread]
            self.looks.look_behind(thread)
