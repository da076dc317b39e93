"""Archives for bin/package, whose octets depend on what is in them alone: on no clock, no user, and no order of a folder."""
import gzip
import io
import tarfile


class Entry:
    """A file, or a folder where it has no octets. It belongs to root."""

    def __init__(self, octets=None, mode=0o644):
        self.octets, self.mode = octets, mode if octets is not None else 0o755


def with_folders(entries):
    """The entries by path, in order, with the folders that they are in."""
    found = dict(entries)
    for path in entries:
        while path := path.rpartition("/")[0]:
            found.setdefault(path, Entry())
    return sorted(found.items())


def zipped(octets):
    """By the class: what gzip.compress writes as the system differs between versions of Python."""
    out = io.BytesIO()
    with gzip.GzipFile(filename="", mode="wb", compresslevel=9, fileobj=out, mtime=0) as it:
        it.write(octets)
    return out.getvalue()


def tar(entries, seconds, top="."):
    """A tar of these below a folder, all of one time, zipped."""
    out = io.BytesIO()
    with tarfile.open(fileobj=out, mode="w", format=tarfile.USTAR_FORMAT) as archive:
        for path, entry in [("", Entry()), *with_folders(entries)]:
            head = tarfile.TarInfo(f"{top}/{path}".rstrip("/"))
            head.uname = head.gname = "root"
            head.mode, head.mtime = entry.mode, seconds
            head.type = tarfile.DIRTYPE if entry.octets is None else tarfile.REGTYPE
            head.size = len(entry.octets or b"")
            archive.addfile(head, io.BytesIO(entry.octets or b""))
    return zipped(out.getvalue())


def ar(members, seconds):
    """An ar archive of pairs of a name and octets, as `dpkg-deb` reads it."""
    out = [b"!<arch>\n"]
    for name, octets in members:
        out += [f"{name:<16}{seconds:<12}{0:<6}{0:<6}{'100644':<8}{len(octets):<10}`\n".encode(), octets, b"\n" * (len(octets) % 2)]
    return b"".join(out)
