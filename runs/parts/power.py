"""Power cuts: power.c in front of the C library notes what a program does to its files, and a disk here picks what is left of them.

A disk has of each file what it had at the last sync, and the changes since then, each a write or a new length. After a cut the file is
what one of WAYS makes of these by dice. Of a process that was killed all changes are left; a cut may lose them until the next one syncs.
"""
import contextlib
import mmap
import pathlib
import struct
import subprocess
import sys
import tempfile

from .faults import check, holds
from .processes import wait_until

SOURCE = pathlib.Path(__file__).with_name("power.c")
OPENED, MADE, WRITTEN, RESIZED, SYNCED, FOLDER_SYNCED = range(6)
HEAD, PAGE = struct.Struct("4q"), struct.Struct("3q")
SECTOR = 512
# how likely it is that a change since the last sync, or a sector of it, is left
LIKELY = (0.02, 0.2, 0.5, 0.8, 0.98)
MASK = bytes(0 if it < 128 else 255 for it in range(256))


@contextlib.contextmanager
def built():
    """The path of the library, which is compiled first."""
    with tempfile.TemporaryDirectory() as folder:
        library = f"{folder}/power.so"
        if subprocess.run(["cc", "-O2", "-Wall", "-shared", "-fPIC", "-o", library, SOURCE]).returncode:
            sys.exit(2)
        yield library


# ---- what a cut leaves of a file

def put(content, change):
    """Makes a change to a content: octets at a place, or, without octets, a length."""
    at, octets = change
    end = at if octets is None else at + len(octets)
    if octets is None:
        del content[at:]
    if len(content) < end:
        content.extend(bytes(end - len(content)))
    if octets is not None:
        content[at:end] = octets


def made(content, changes):
    content = bytearray(content)
    for it in changes:
        put(content, it)
    return content


def versions(kept, changes):
    """What each sector that was changed has held since the last sync, and how long the file was."""
    content, sectors, lengths = bytearray(kept), {}, [len(kept)]

    def sector(number):
        return bytes(content[number * SECTOR:(number + 1) * SECTOR]).ljust(SECTOR, b"\0")

    for at, octets in changes:
        end = max(len(content), at) if octets is None else at + len(octets)
        numbers = range(min(at, len(content)) // SECTOR, -(-end // SECTOR))
        for number in numbers:
            sectors.setdefault(number, [sector(number)])
        put(content, (at, octets))
        for number in numbers:
            sectors[number].append(sector(number))
        lengths.append(len(content))
    return sectors, lengths


def nothing(kept, changes, dice):
    return bytearray(kept)


def everything(kept, changes, dice):
    return made(kept, changes)


def first_changes(kept, changes, dice):
    """All up to some change, of which the first octets are left."""
    number = dice.randrange(len(changes))
    content, (at, octets) = made(kept, changes[:number]), changes[number]
    if octets is not None:
        edge = (at + dice.randint(0, len(octets))) // SECTOR * SECTOR if dice.random() < 0.5 else at + dice.randint(0, len(octets))
        put(content, (at, octets[:max(0, edge - at)]))
    return content


def some_changes(kept, changes, dice):
    """Whole changes: a later one may be left where one before it is lost."""
    likely = dice.choice(LIKELY)
    return made(kept, [it for it in changes if dice.random() < likely])


def by_sector(kept, changes, dice, pick):
    sectors, lengths = versions(kept, changes)
    content = bytearray(kept).ljust(max(lengths), b"\0")
    for number, held in sectors.items():
        content[number * SECTOR:(number + 1) * SECTOR] = pick(held)
    del content[dice.choice(lengths):]
    return content


def some_sectors(kept, changes, dice):
    """Each sector has what it had at some time since the last sync."""
    likely = dice.choice(LIKELY)
    return by_sector(kept, changes, dice, lambda held: held[-1] if dice.random() < likely else dice.choice(held[:-1]))


def some_octets(kept, changes, dice):
    """Each octet has what it had before or after."""
    def pick(held):
        if dice.random() < 0.5:
            return dice.choice(held)
        old, new = (int.from_bytes(dice.choice(held), "big") for _ in range(2))
        mask = int.from_bytes(dice.randbytes(SECTOR).translate(MASK), "big")
        return (old & ~mask | new & mask).to_bytes(SECTOR, "big")
    return by_sector(kept, changes, dice, pick)


def torn(kept, changes, dice):
    """Whole changes, and writes that leave other octets than they wrote."""
    content = bytearray(kept)
    for at, octets in changes:
        pick = dice.randrange(3)
        if pick == 2 and octets:
            begin, end = sorted((dice.randint(0, len(octets)), dice.randint(0, len(octets))))
            octets = octets[:begin] + dice.randbytes(end - begin) + octets[end:]
        if pick:
            put(content, (at, octets))
    return content


WAYS = (nothing, everything, first_changes, some_changes, some_changes, some_sectors, some_sectors, some_octets)
WORDS = ("nothing", "everything", "first changes", "some changes", "some sectors", "some octets", "torn", "no name")


def lengthened(kept, content, dice):
    """Octets past the length that was synced may be any, and the file may have grown by a part."""
    grown = len(content) - len(kept)
    if grown > 0 and dice.random() < 0.25:
        likely = dice.choice(LIKELY)
        for at in range(len(kept), len(content), SECTOR):
            if dice.random() < likely:
                end = min(at + SECTOR, len(content))
                content[at:end] = dice.randbytes(end - at)
    if grown > 0 and dice.random() < 0.25:
        del content[len(kept) + dice.randint(0, grown):]
    return content


# ---- a disk

class File:
    """What a disk has of a file: its content at the last sync, the changes since then, and whether its name is there after a cut."""

    def __init__(self, kept=b"", is_named=True):
        self.kept, self.changes, self.is_named = bytearray(kept), [], is_named

    def now(self):
        return made(self.kept, self.changes)

    def sync(self):
        for it in self.changes:
            put(self.kept, it)
        self.changes = []

    def left(self, dice, tears):
        """The way of a cut, and what it leaves."""
        way = torn if tears else dice.choice(WAYS)
        return way, lengthened(self.kept, way(self.kept, self.changes, dice), dice)


class Disk:
    """The disk under the files of one program, which is started again and again.

    `lies` are names' ends: where a file's name ends so a sync of it is answered and not made; "/" is the folder's. `unseen` is the number
    of a write that isn't noted. Both are for what a check has to find.
    """

    def __init__(self, library, folder, files, room, lies=(), unseen=0):
        self.library, self.folder, self.pattern, self.room = library, pathlib.Path(folder).resolve(), files, pathlib.Path(room)
        self.lies, self.unseen, self.logs, self.seen = tuple(lies), unseen, 0, 0
        self.files = {it.name: File(it.read_bytes()) for it in self.folder.glob(files)}
        self.rows = {}  # of each service those that were synced at the last cut, kept here by the script
        self.room.mkdir(parents=True)
        self.file = open(self.room / "page", "w+b")
        self.file.truncate(PAGE.size)
        self.page = mmap.mmap(self.file.fileno(), PAGE.size)

    def environment(self, cut=0, since=""):
        """That of a program's next process, which ends at a change, or at none, counted as power.c says."""
        self.logs += 1
        self.log().touch()
        self.page[:] = PAGE.pack(0, cut, 0)
        return {"LD_PRELOAD": self.library, "POWER_FOLDER": str(self.folder), "POWER_LOG": str(self.log()),
                "POWER_PAGE": str(self.room / "page"), "POWER_SINCE": since}

    def log(self):
        return self.room / f"log-{self.logs}"

    def counted(self):
        return PAGE.unpack(self.page)[0]

    def cut_in(self, changes):
        """The process ends so many changes from now."""
        self.set_cut(self.counted() + changes)

    def set_cut(self, number):
        self.page[8:16] = number.to_bytes(8, sys.byteorder)

    def stop(self):
        """No change is made any more: the process ends at its next one, or can be killed."""
        self.set_cut(1)
        wait_until("a change was made", lambda: not PAGE.unpack(self.page)[2])

    def read(self):
        """Reads what the last process did, once it has ended: its files have to be as its log says."""
        octets, at, names = self.log().read_bytes(), 0, {}
        while at < len(octets):
            kind, number, place, length = HEAD.unpack_from(octets, at)
            at += HEAD.size
            self.note(names, kind, number, place, octets[at:at + length])
            at += length
        self.log().unlink()
        there = {it.name: it.read_bytes() for it in self.folder.glob(self.pattern)}
        check("the files of the folder, and those of the log", sorted(there), sorted(self.files))
        for name, content in there.items():
            holds(f"{name} isn't what the log of writes makes it", content == self.files[name].now())

    def note(self, names, kind, number, place, octets):
        if kind in (OPENED, MADE):
            names[number] = name = octets.decode()
            if kind == MADE:
                self.files[name] = File(is_named=False)
            holds(f"{name} was opened, and isn't known", name in self.files)
        elif kind == FOLDER_SYNCED:
            for it in self.files.values():
                it.is_named |= "/" not in self.lies
        elif kind == SYNCED:
            if not names[number].endswith(self.lies):
                self.files[names[number]].sync()
        else:
            self.seen += kind == WRITTEN
            if kind == RESIZED or self.seen != self.unseen:
                self.files[names[number]].changes.append((place, octets if kind == WRITTEN else None))

    def may_lose(self, beginning=""):
        """Whether a cut may change a file whose name begins so."""
        return any(it.changes or not it.is_named for name, it in self.files.items() if name.startswith(beginning))

    def copy(self, target, beginning, is_synced):
        """Writes files as they were synced, or as they are without a cut, to a new folder."""
        target.mkdir(parents=True)
        for name, it in self.files.items():
            if name.startswith(beginning) and (it.is_named or not is_synced):
                (target / name).write_bytes(it.kept if is_synced else it.now())
        return target

    def cut(self, dice, loses_names, tears):
        """The power is cut: each file becomes what is left of it. The way of each that had changes, or that its name is lost."""
        ways = {}
        for name, it in list(self.files.items()):
            if loses_names and not it.is_named and dice.random() < 0.5:
                ways[name] = "no name"
                del self.files[name]
                (self.folder / name).unlink()
            elif it.changes:
                way, content = it.left(dice, tears)
                ways[name], self.files[name] = way.__name__.replace("_", " "), File(content)
                (self.folder / name).write_bytes(content)
            else:
                it.is_named = True
        return ways

    def end(self):
        self.page.close()
        self.file.close()
