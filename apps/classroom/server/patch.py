"""What changed between two views, so that a page is sent no more.

A view's parts are its keys. A patch of a part is a list of changes, each one of

    [path, value]                the value at the path is another, or is new
    [path]                       nothing is at the path any more
    [path, start, count, items]  in the list at the path, `count` members from `start` on become these

A path is a list of keys and places. Some parts are news: they are sent as they are, when there are any.
"""

import json

NEWS = frozenset(
    ("calls", "points", "bench", "checklist", "answers", "exercises", "bench_files", "addresses")
)


def changes(old, new):
    """The changes that make the new value of the old one."""
    found = []
    _compare(old, new, [], found)
    return found


def _compare(old, new, path, found):
    if old is new or old == new and type(old) is type(new):
        return
    if type(old) is dict and type(new) is dict:
        for key, value in new.items():
            if key in old:
                _compare(old[key], value, [*path, key], found)
            else:
                found.append([[*path, key], value])
        found.extend([[*path, key]] for key in old if key not in new)
    elif type(old) is list and type(new) is list:
        _lists(old, new, path, found)
    else:
        found.append([path, new])


def _lists(old, new, path, found):
    shorter = min(len(old), len(new))
    start = 0
    while start < shorter and old[start] == new[start]:
        start += 1
    end = 0
    while end < shorter - start and old[-1 - end] == new[-1 - end]:
        end += 1
    if len(old) == len(new):
        for place in range(start, len(new) - end):
            _compare(old[place], new[place], [*path, place], found)
    else:
        found.append([path, start, len(old) - end - start, new[start : len(new) - end]])


def patched(value, changes):
    """The value with the changes made; the old one stays as it is."""
    for path, *change in changes:
        value = _changed(value, path, change)
    return value


def _changed(value, path, change):
    if not path:
        if len(change) == 1:
            return change[0]
        start, count, items = change
        return [*value[:start], *items, *value[start + count :]]
    key, *rest = path
    copy = list(value) if type(value) is list else dict(value)
    if not rest and not change:
        del copy[key]
    else:
        copy[key] = _changed(value[key] if rest or len(change) == 3 else None, rest, change)
    return copy


class Versions:
    """What a page has been shown: of each part its version and its value."""

    def __init__(self):
        self._parts = {}

    def message(self, view):
        """What brings the page to this view: at first all of it, then what has changed; a part that the
        view does not have is as it was."""
        # A copy: the room goes on to change lists that a view shows.
        view = json.loads(json.dumps(view))
        news = {key: value for key, value in view.items() if key in NEWS}
        parts = {key: value for key, value in view.items() if key not in NEWS}
        if not self._parts:
            self._parts = {key: (1, value) for key, value in parts.items()}
            return {"view": view}
        moved = {}
        for key, value in parts.items():
            version, before = self._parts.get(key, (0, None))
            made = changes(before, value)
            if made:
                self._parts[key] = (version + 1, value)
                moved[key] = [version + 1, made]
        news = {key: value for key, value in news.items() if value != [] or key not in ("calls", "points")}
        return {"patch": moved, **({"news": news} if news else {})}


class Patched:
    """A page's side: the view that the messages amount to."""

    def __init__(self):
        self.view = None
        self._versions = {}

    def take(self, message):
        """Takes a message of Versions; whether it fits what was taken before."""
        if "view" in message:
            self.view = message["view"]
            self._versions = {key: 1 for key in self.view if key not in NEWS}
            return True
        for key, (version, made) in message["patch"].items():
            if version != self._versions.get(key, 0) + 1:
                return False
            self._versions[key] = version
            self.view = {**self.view, key: patched(self.view.get(key), made)}
        # What was new with the view before is not new any more.
        kept = {key: [] if key in ("calls", "points") else value for key, value in self.view.items()}
        self.view = {**kept, **message.get("news", {})}
        return True
