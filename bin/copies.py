"""Copies of crates and of programs that are no crates, each copy a repository of its own, in which `rt` can build or prove them."""
import pathlib
import shutil

TOP = pathlib.Path(__file__).resolve().parent.parent
JOINED = """//! Several programs, compiled as one.
#![tactic(auto)]

use std::io;
use std::process::ExitCode;

unsafe extern "C" {
    safe fn member() -> u64;
}

fn main(rt: HostRuntime) -> io::Result<ExitCode> {
    match member() {
ARMS        _ => Ok(ExitCode::from(2)),
    }
}
"""


def lines_of(path):
    """Each crate or program that a file such as crates.txt has, and its line."""
    lines = [line.split("#")[0].strip() for line in path.read_text(encoding="utf-8").splitlines()]
    return {line.split(":")[0].split()[0]: line for line in lines if line}


def copy(folder, names, programs):
    """Makes the folder a repository of these, crates or programs, and of the crates that they stand on. `programs` has the folder and the
    line of each program. Their files have the ending .txt, since `rt ci` takes no .rt outside of a crate; those at the top of a program's
    folder are its src/."""
    folder = pathlib.Path(folder)
    lines = {**lines_of(TOP / "crates.txt"), **{name: line for name, (_, line) in programs.items()}}
    found = list(names)
    for name in found:  # which grows meanwhile
        found += [other for other in lines[name].partition(":")[2].split() if other in lines and other not in found]
    for name in found:
        crate = folder / "crates" / name
        source = programs[name][0] if name in programs else TOP / "crates" / name
        shutil.copytree(source, crate, ignore=shutil.ignore_patterns("out", "cases"))
        for text in [*crate.rglob("*.rt.txt"), *crate.rglob("*.antt.txt")]:
            text.rename(text.with_suffix(""))
        for text in list(crate.glob("*.rt")):
            (crate / "src").mkdir(exist_ok=True)
            text.rename(crate / "src" / text.name)
    shutil.copy(TOP / "HANDLES", folder)
    (folder / "crates.txt").write_text("".join(f"{lines[name]}\n" for name in found), encoding="utf-8")
    (folder / ".git").mkdir(exist_ok=True)


def test_programs():
    """The folder and the line of each program that tests, and the words between its name and the colon, which aren't for `rt`, in the order
    of tests/programs.txt."""
    lines = {name: line.partition(":") for name, line in lines_of(TOP / "tests/programs.txt").items()}
    programs = {name: (TOP / "tests" / name, f"{name}:{rest}") for name, (_, _, rest) in lines.items()}
    return programs, {name: dict(word.split("=") for word in head.split()[1:]) for name, (head, _, _) in lines.items()}


def join(folder, name, members, programs):
    """Makes the folder a repository of these programs, each a library there, and of one program that runs the member whose place in the
    list the function `member` of C returns."""
    copy(folder, members, programs)
    for member in members:
        root = folder / "crates" / member / "src/main.rt"
        (root.parent / "lib.rt").write_text(root.read_text("utf-8").replace("\nfn main(", "\npub fn main("), "utf-8")
        root.unlink()
    crate = folder / "crates" / name
    (crate / "src").mkdir(parents=True)
    arms = "".join(f"        {number} => {member}::main(rt),\n" for number, member in enumerate(members))
    (crate / "src/main.rt").write_text(JOINED.replace("ARMS", arms), "utf-8")
    with (folder / "crates.txt").open("a", encoding="utf-8") as lines:
        lines.write(f"{name}: {' '.join(members)}\n")
    return crate
