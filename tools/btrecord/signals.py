"""The signals that would end the program, taken one by one where it is ready for them.

They are held back, so that none comes between the making of an instance and its removal. A real fault of the program (as SIGSEGV) is
not held back by the kernel, and ends it.
"""
import signal

# Their defaults are to do nothing, to stop, or to go on.
HARMLESS = {signal.SIGCHLD, signal.SIGCONT, signal.SIGTSTP, signal.SIGTTIN, signal.SIGTTOU, signal.SIGURG, signal.SIGWINCH}
UNCATCHABLE = {signal.SIGKILL, signal.SIGSTOP}


def name_of(number):
    """A signal's name, or its number where it has none."""
    try:
        return signal.Signals(number).name
    except ValueError:
        return f"signal {number}"


class Signals:
    """Holds all signals back that would end the program, but for one that `nohup` had it ignore.

    A shell has its programs in the background ignore SIGINT and SIGQUIT; who sends them one nevertheless means to end them.
    """

    def __enter__(self):
        self.held = signal.valid_signals() - HARMLESS - UNCATCHABLE
        if signal.getsignal(signal.SIGHUP) == signal.SIG_IGN:
            self.held.remove(signal.SIGHUP)
        ignored = [number for number in self.held if signal.getsignal(number) == signal.SIG_IGN]
        self.handlers = {number: signal.signal(number, signal.SIG_DFL) for number in ignored}
        self.before = signal.pthread_sigmask(signal.SIG_BLOCK, self.held)
        return self

    def wait(self, seconds):
        """Waits so long, or until a signal comes; answers its number, or none."""
        came = signal.sigtimedwait(self.held, max(seconds, 0))
        return came.si_signo if came else None

    def give_back(self, but=()):
        """Makes all as it was before, but for how these signals are taken."""
        for number, handler in self.handlers.items():
            if number not in but:
                signal.signal(number, handler)
        signal.pthread_sigmask(signal.SIG_SETMASK, self.before)

    def __exit__(self, *_):
        while self.wait(0):
            pass
        self.give_back()
