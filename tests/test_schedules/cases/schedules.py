"""How the modules of this folder say a schedule and what its run prints."""
from cases_notation import echo, say


def schedule(*texts, last=None):
    """A schedule of these lines; `last` lacks its LF."""
    say("schedule")
    for text in texts:
        echo(f"| {text}" if text else "|")
    if last is not None:
        echo(f"|- {last}")


def written(mark, text):
    """The lines that are printed of what was written."""
    parts = text.split("\n")
    return [f"{mark} {part}" for part in parts[:-1]] + ([f"{mark}- {parts[-1]}"] if parts[-1] else [])


def ran(line, out="", err="", end="status 0"):
    say(line, *written(">", out), *written("!", err), end)
