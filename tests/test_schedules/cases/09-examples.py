"""The schedules of examples/, each with what is stored beside it."""
import pathlib

from cases_notation import note, section
from schedules import ran, schedule

EXAMPLES = pathlib.Path(__file__).resolve().parents[3] / "examples"


def cases():
    section("The schedules of examples/", "Each with what is stored beside it.")
    for path in sorted(EXAMPLES.glob("*.schedule")):
        note(path.stem)
        schedule(*path.read_text(encoding="utf-8").splitlines())
        ran("run", path.with_suffix(".stdout").read_text(encoding="utf-8"))
