"""Steps of a script, each printed with its outcome."""
import subprocess

from .faults import Wrong, text_of
from .stomp_client import Closed

FAULTS = (Wrong, Closed, OSError, ValueError, TypeError, IndexError, KeyError, subprocess.TimeoutExpired)


def tried(what, function, faults=FAULTS):
    """Tries a step and prints its outcome: whether it was right. A step is wrong if it returns False or raises one of these faults; a text
    that it returns is printed too."""
    try:
        found = function()
        is_right, more = found is not False, found if isinstance(found, str) else ""
    except faults as fault:
        is_right, more = False, text_of(fault)
    print(f"{'ok  ' if is_right else 'FAIL'} {what}{more and ': ' + more}", flush=True)
    return is_right


class Steps:
    """Steps in their order, each a function under its text."""

    def __init__(self):
        self.them = []

    def step(self, what):
        def add(function):
            self.them.append((what, function))
            return function
        return add

    def failed(self, faults=FAULTS):
        """Tries them all: how many were wrong."""
        return sum(not tried(what, function, faults) for what, function in self.them)
