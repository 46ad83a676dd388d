"""Which class is served: the last one of a folder, a new one, or the one of a file."""

import os
import time
from pathlib import Path

from .store import Store, StoreError

ROOT = Path(__file__).resolve().parents[3]
ENDING = ".class"


def folder():
    """The folder of the classes' files, which only their owner may read: they hold keys. It is the one
    that HELLO_CLASSES names, or classes/ beside ./class, or, if nothing can be written there, one in the
    user's own folder."""
    named = os.environ.get("HELLO_CLASSES")
    if named:
        return Path(named).resolve()
    beside = ROOT / "classes"
    if os.access(beside if beside.exists() else ROOT, os.W_OK):
        return beside
    return Path.home() / ".local" / "share" / "hello-class"


def _used(path):
    """When a store was last written."""
    return max(p.stat().st_mtime for p in (path, Path(f"{path}-wal")) if p.exists())


def last(where):
    """The file of the class that was used last, or None."""
    return max(where.glob(f"*{ENDING}"), key=_used, default=None)


def new_name(where):
    """A file for a class that begins now, by its day and time."""
    began = time.strftime("%Y-%m-%d-%H%M%S")
    names = (where / f"{began}{more}{ENDING}" for more in ("", *(f"-{k}" for k in range(2, 1000))))
    return next(name for name in names if not name.exists())


def opened(asked):
    """The Store that was asked for. It is one of a class that is still to begin if it has no `seats`."""
    try:
        return Store(str(_path(asked)))
    except OSError as why:
        raise StoreError(f"No class can be kept in {why.filename}: {why.strerror}.") from None


def _path(asked):
    if asked.store:
        path = Path(asked.store).resolve()
        if asked.new and path.exists():
            raise StoreError(f"There is a class in {path} already: leave out --new to resume it.")
        return path
    where = folder()
    where.mkdir(mode=0o700, parents=True, exist_ok=True)
    return (None if asked.new else last(where)) or new_name(where)
