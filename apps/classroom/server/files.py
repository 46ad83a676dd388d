"""The pages' files, read once: no name in a request ever reaches the file system."""

from pathlib import Path

WEB = Path(__file__).resolve().parent.parent / "web"

SORTS = {
    ".html": "text/html; charset=utf-8",
    ".css": "text/css; charset=utf-8",
    ".js": "text/javascript; charset=utf-8",
    ".json": "application/json",
    ".svg": "image/svg+xml",
    ".png": "image/png",
}


def read_all(folder=WEB):
    """The files of the folder by name, each with its sort and its octets."""
    return {
        path.name: (SORTS[path.suffix], path.read_bytes())
        for path in sorted(folder.iterdir())
        if path.is_file() and path.suffix in SORTS
    }
