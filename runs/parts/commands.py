"""The command line of a script: its name, its help, and how it ends."""
import argparse
import os
import signal
import sys

from .processes import TOP

COMMAND = os.path.relpath(os.path.realpath(sys.argv[0]), TOP)


def reader(page):
    """A reader of the script's options. Its help is the text at the head of the script, and status 2 is a fault of usage.

    SIGTERM becomes an exception, so that a script that is ended also ends the programs that it started.
    """
    signal.signal(signal.SIGTERM, signal.default_int_handler)
    return argparse.ArgumentParser(prog=COMMAND, description=page, usage=argparse.SUPPRESS,
                                   formatter_class=argparse.RawDescriptionHelpFormatter)


def positive(word):
    if not word.isdecimal() or not int(word):
        raise argparse.ArgumentTypeError("not a number from 1")
    return int(word)
