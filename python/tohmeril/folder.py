"""Folders that are whole or not there: a write makes a version beside the others, and one rename lets it count.

    folder/versions/7/bars.csv, ..        all files of one version, which nobody changes any more
    folder/versions/current -> 7          the version that counts
    folder/bars.csv -> versions/current/bars.csv, ..    the plain names, for commands

A writer brings all files of a new version to the disk before it renames a link of its own over `current`. That rename
is one step of the file system: whoever reads `current` finds the old version or the new one, and each of them has all
its files, wherever the writer is ended. `Data` reads `current` once and then names the files of that version alone,
so that it sees one version from its first read to its last. It holds a shared lock on it for as long as it lives, and
a writer removes no version that is held. Writers take turns.
"""

from __future__ import annotations

import fcntl
import os
import shutil
import sqlite3
from contextlib import closing, contextmanager, suppress
from pathlib import Path
from typing import Iterator, Mapping, Optional, Sequence, Union

KEPT = 2  # versions that stay though nobody holds them: the current one and the one before


def as_path(folder: Union[str, os.PathLike[str]]) -> Path:
    """The path of a folder."""
    if not isinstance(folder, (str, os.PathLike)):
        raise TypeError(f"a folder is given by its path, and not by {folder!r}")
    return Path(folder)


class Held:
    """A version that stays for as long as this lives."""

    def __init__(self, path: Path):
        self.path = path
        self.lock = os.open(path / "lock", os.O_RDONLY)
        try:
            fcntl.flock(self.lock, fcntl.LOCK_SH)
        except OSError:  # the file system has no locks, so that no writer can be there
            pass

    def is_there(self) -> bool:
        """Whether the version was there when it was locked, and no writer had just removed it."""
        return _is_at(self.lock, self.path / "lock")

    def __del__(self) -> None:
        if hasattr(self, "lock"):
            os.close(self.lock)


def current(folder: Path) -> Optional[Path]:
    """The version that counts; None where the folder has plain files alone."""
    try:
        return folder / "versions" / os.readlink(folder / "versions/current")
    except OSError:
        return None


def hold(folder: Path) -> Optional[Held]:
    """The version that counts; None where the folder has plain files alone."""
    while (path := current(folder)) is not None:
        try:
            held = Held(path)
        except OSError:
            if current(folder) == path:  # it is damaged, which those who read it then say
                return None
            continue
        if held.is_there():
            return held
    return None


def lost(folder: Path) -> str:
    """What is said of a folder whose version is not there; empty where it is."""
    path = current(folder)
    if path is None or path.is_dir():
        return ""
    there = ", ".join(map(str, _numbers(folder / "versions"))) or "none"
    return f"versions/current leads to {path.name}, which is not there: let it lead to one that is; there are {there}"


def is_link(path: Path) -> bool:
    """Whether a plain name leads to the version that counts."""
    return path.is_symlink() and os.readlink(path) == f"versions/current/{path.name}"


def is_plain(path: Path) -> bool:
    """Whether a file is of no version, but was put into the folder by hand."""
    return path.exists() and not is_link(path)


def look(folder: Path, names: Mapping[str, str], needed: Sequence[str]) -> tuple[Optional[Held], dict[str, Path]]:
    """The version that counts, and the files of parts by their names, all of it or of the folder itself.

    Of the parts that are not needed those are left out that are not there.
    """
    while True:
        before, held, files = current(folder), hold(folder), {}
        for part, name in names.items():
            path = folder / name
            if path.parent != folder:
                path = path.resolve() if is_link(path) else path  # to a version of another folder, which stays one
            elif held is not None and is_link(path):
                path = held.path / name
            if part in needed or path.exists():
                files[part] = path
        if before == current(folder):  # else a name may have been of the version that came meanwhile
            return held, files


def held_again(folder: Path, files: Mapping[str, Path]) -> Optional[Held]:
    """The version of files that were looked up before, perhaps by another process, which holds it meanwhile."""
    for path in files.values():
        if path.parent.parent == folder / "versions":
            try:
                return Held(path.parent)
            except OSError:
                return None  # the folder is not seen here, which its readers then say
    return None


@contextmanager
def writing(folder: Path, names: Sequence[str]) -> Iterator[Path]:
    """A folder for the files of a new version, which counts once the block has ended without an exception.

    Parameters
    ----------
    folder : Path
    names : sequence of str
        The files that a version may have. Plain ones in the folder become a version of their own before.
    """
    fresh, versions = not folder.exists(), folder / "versions"
    _require_places(folder, names)
    try:
        with _turn(versions):
            new = _emptied(versions / "new")
            try:
                yield new
                _take_in(folder, names)
                _publish(folder, new, names)
            finally:
                shutil.rmtree(new, ignore_errors=True)
                if current(folder) is None:  # so that nothing is left of a first write that ended early
                    (versions / "lock").unlink(
                        missing_ok=True
                    )  # within the turn: later it may be the lock of the next writer
            _tidy(versions)
    finally:
        if current(folder) is None:
            with suppress(OSError):  # there is something in it, perhaps by the next writer
                for path in [versions, folder][: 1 + fresh]:
                    path.rmdir()


def _require_places(folder: Path, names: Sequence[str]) -> None:
    """Refuse a folder that can't be made, or has a folder in the place of a file."""
    from .faults import DataFault  # which needs this module first

    path = next(path for path in (folder / "versions", folder, *folder.absolute().parents) if os.path.lexists(path))
    if not path.is_dir():
        what = f"is a link to {os.readlink(path)}, which is not there" if path.is_symlink() else "is a file"
        raise DataFault(f"folder: {path} {what}", "give another folder, or remove it")
    for name in names:
        if (folder / name).is_dir():
            raise DataFault(f"folder: {folder / name} is a folder", "give another folder, or remove it")


@contextmanager
def _turn(versions: Path) -> Iterator[None]:
    """One writer at a time; the next one waits.

    Again and again, since a first writer that ends early takes the lock and its folder away.
    """
    missed = 0
    while True:
        try:
            versions.mkdir(parents=True, exist_ok=True)
            lock = open(versions / "lock", "a")
        except (FileNotFoundError, FileExistsError):
            missed += 1
            if missed > 1000:
                raise
            continue
        with lock:
            fcntl.flock(lock, fcntl.LOCK_EX)
            if _is_at(lock.fileno(), versions / "lock"):
                yield
                return


def _take_in(folder: Path, names: Sequence[str]) -> None:
    """Make a version of plain files. Their names become links, while what they lead to stays the same at each step."""
    if not any(is_plain(folder / name) for name in names):
        return
    old = _emptied(folder / "versions/old")
    for name in names:
        source = folder / name
        if any(source.with_name(f"{name}-{log}").exists() for log in ("wal", "journal")):
            _copy_store(source, old / name)
        elif is_plain(source) and not source.is_symlink():
            try:
                os.link(source, old / name)
            except OSError:  # a file system without such links, or a file of somebody else
                shutil.copyfile(source, old / name)
        elif source.exists():
            shutil.copyfile(source, old / name)
    _publish(folder, old, names)


def _copy_store(source: Path, target: Path) -> None:
    """Copy a database whose newest rows are in a log beside it, or of which a write was broken off."""
    from .faults import StoreFault

    try:
        with closing(sqlite3.connect(source)) as store, closing(sqlite3.connect(target)) as copy:
            store.backup(copy)
    except sqlite3.Error as error:
        raise StoreFault(f"store: {source}", str(error)) from None


def _publish(folder: Path, new: Path, names: Sequence[str]) -> None:
    """Bring a version to the disk, and let it count."""
    versions = folder / "versions"
    given = [name for name in names if (new / name).exists()]
    (new / "lock").touch()
    for path in [*new.iterdir(), new]:
        _sync(path)
    if (versions / "current").exists() and current(folder) is None:  # in a copy that followed the links
        os.rename(versions / "current", versions / _next(versions))
    version = versions / _next(versions)
    os.rename(new, version)
    for name in given:
        if not is_plain(folder / name):
            _link(versions, f"versions/current/{name}", folder / name)
    _sync(versions)
    _link(versions, version.name, versions / "current")
    _sync(versions)
    for name in names:
        if name not in given and is_link(folder / name):
            (folder / name).unlink()
        elif name in given and not is_link(folder / name):
            _link(versions, f"versions/current/{name}", folder / name)
            for log in ("wal", "shm", "journal"):
                (folder / f"{name}-{log}").unlink(missing_ok=True)
    _sync(folder)


def _is_at(file: int, path: Path) -> bool:
    """Whether an open file is still the one of this name."""
    try:
        return os.path.samestat(os.fstat(file), os.stat(path))
    except FileNotFoundError:
        return False


def _link(versions: Path, target: str, path: Path) -> None:
    """Make a link in place of what has its name, at once."""
    (versions / "link").unlink(missing_ok=True)
    (versions / "link").symlink_to(target)
    os.replace(versions / "link", path)


def _next(versions: Path) -> str:
    return str(max(_numbers(versions), default=0) + 1)


def _numbers(versions: Path) -> list[int]:
    return sorted(int(path.name) for path in versions.iterdir() if path.name.isdigit())


def _tidy(versions: Path) -> None:
    """Remove the versions that nobody holds, but for the newest ones up to the current one.

    What was written counts by now, so that a version which may not be removed, as that of another user, stays.
    """
    numbers = _numbers(versions)
    newest = [number for number in numbers if number <= int(os.readlink(versions / "current"))][-KEPT:]
    for number in {*numbers} - {*newest}:
        try:
            with open(versions / str(number) / "lock", "a") as lock:
                fcntl.flock(lock, fcntl.LOCK_EX | fcntl.LOCK_NB)
                os.rename(versions / str(number), _emptied(versions / "gone"))
                shutil.rmtree(versions / "gone")
        except (BlockingIOError, PermissionError):
            continue


def _emptied(folder: Path) -> Path:
    """A new folder in place of what a writer that was ended left."""
    if folder.exists():
        shutil.rmtree(folder)
    folder.mkdir()
    return folder


def _sync(path: Path) -> None:
    """Bring a file or a folder to the disk."""
    file = os.open(path, os.O_RDONLY)
    try:
        os.fsync(file)
    finally:
        os.close(file)
