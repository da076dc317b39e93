"""The exception of a script that finds something wrong, and the checks that raise it."""


class Wrong(Exception):
    """What a check found differs from what should be there."""


def check(what, found, wanted):
    if found != wanted:
        raise Wrong(f"{what}: {found!r}, expected {wanted!r}")


def holds(what, condition):
    if not condition:
        raise Wrong(what)


def text_of(fault):
    """The text of a Wrong, and of any other exception its kind too."""
    return str(fault) if isinstance(fault, Wrong) else repr(fault)
