"""Archives that are the same to the byte, whoever makes them: sorted entries, one time, and no names of users."""
import gzip
import io
import os
import tarfile
import time
import zipfile
from pathlib import Path
from typing import Dict, NamedTuple


class Entry(NamedTuple):
    """A file of an archive, or a link."""

    data: bytes
    is_program: bool = False
    link: str = ""


Files = Dict[str, Entry]


def read_folder(folder: Path) -> Files:
    """All files and links below a folder."""
    found = {}
    for path in folder.rglob("*"):
        name = path.relative_to(folder).as_posix()
        if path.is_symlink():
            found[name] = Entry(b"", link=os.readlink(str(path)))
        elif path.is_file():
            found[name] = Entry(path.read_bytes(), bool(path.stat().st_mode & 0o100))
    return found


def read_zip(path: Path) -> Files:
    with zipfile.ZipFile(str(path)) as archive:
        return {it.filename: Entry(archive.read(it), bool(it.external_attr >> 16 & 0o100)) for it in archive.infolist() if not it.is_dir()}


def read_tar(path: Path) -> Files:
    with tarfile.open(str(path)) as archive:
        members = [it for it in archive.getmembers() if it.isfile()]
        return {it.name: Entry(archive.extractfile(it).read(), bool(it.mode & 0o100)) for it in members}  # type: ignore[union-attr]


def write_tar(files: Files, to: Path, epoch: int) -> None:
    """A tar file of ustar's form, in gzip's without a name and with this time."""
    inside = io.BytesIO()
    with tarfile.open(fileobj=inside, mode="w", format=tarfile.USTAR_FORMAT) as archive:
        for name, entry in sorted(files.items()):
            member = tarfile.TarInfo(name)
            member.mtime, member.mode, member.size = epoch, 0o755 if entry.is_program else 0o644, len(entry.data)
            if entry.link:
                member.type, member.linkname, member.mode = tarfile.SYMTYPE, entry.link, 0o777
            archive.addfile(member, io.BytesIO(entry.data))
    with to.open("wb") as file, gzip.GzipFile("", "wb", 9, file, epoch) as packed:
        packed.write(inside.getvalue())


def write_zip(files: Files, to: Path, epoch: int, first: str = "") -> None:
    """A zip file, which has no time before 1980; `first` is what has to stand at its beginning, as a jar's manifest."""
    at = time.gmtime(max(epoch, 315532800))[:6]
    with zipfile.ZipFile(str(to), "w") as archive:
        for name, entry in sorted(files.items(), key=lambda it: (it[0] != first, it[0])):
            member = zipfile.ZipInfo(name, at)
            member.compress_type, member.create_system = zipfile.ZIP_DEFLATED, 3
            member.external_attr = (0o100755 if entry.is_program else 0o100644) << 16
            archive.writestr(member, entry.data)
