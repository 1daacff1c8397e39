"""The signals that end a command, which takes away first what it has begun."""
import signal
import sys
from contextlib import contextmanager

# What ends a tool, which takes away first what it has begun.
ENDS = signal.SIGINT, signal.SIGTERM, signal.SIGHUP


@contextmanager
def undisturbed():
    """Holds back what would end the tool, where it would leave something begun that nothing takes away."""
    before = signal.pthread_sigmask(signal.SIG_BLOCK, ENDS)
    try:
        yield
    finally:
        signal.pthread_sigmask(signal.SIG_SETMASK, before)


def end(number, _):
    """Ends the tool by a signal. A second one does not keep it from taking away what it has begun."""
    for each in ENDS:
        signal.signal(each, signal.SIG_IGN)
    sys.exit(128 + number)
