"""What the text of a bench file promises, looked at while the file is run."""

import bisect

from hello.bench_file import Entry, unlike
from hello import PLACES

from ..found_texts import text_of

MOST_BROKEN = 20
"""This many broken promises are reported."""


class Promised:
    """The promises of a file that is run from its set-up on: how many were looked at, and which of them
    are broken, each as a text. `named` has the answers that the text names, or is None. Events are counted from
    the first of the first piece; `base` is how many come before the piece that is run."""

    def __init__(self, promises, named=None):
        self._behind = {}
        for promise in promises:
            self._behind.setdefault(promise.after, []).append(promise)
        self._places = sorted(self._behind)
        self._of = len(promises)
        self._named = named
        self.base = 0
        self.looked = 0
        self.broken = []

    def piece(self, done, allowance):
        """How many events may be carried out before something is promised: at least one."""
        done += self.base
        behind = self._places[bisect.bisect_right(self._places, done) :]
        return min(allowance, behind[0] - done) if behind else allowance

    def look(self, bench, before=0):
        """Looks at what is promised behind the events that are done, and at the answers to those since
        `before`."""
        here = self._behind.get(self.base + bench.done, ())
        answers = bench.answers if here or self._named else ()
        for event, answer, name in unlike(self._named, answers[before:], self.base + before):
            self._tell(["promise.answered", {"event": event, "answer": int(answer), "named": int(name)}])
        for promise in here:
            broken = promise.broken(_Tables(bench), _Answers(self.base, answers))
            if broken:
                self._tell(["text.line", {"line": promise.line, "words": text_of(broken)}])
        self.looked += len(here)

    def _tell(self, text):
        if len(self.broken) < MOST_BROKEN:
            self.broken.append(text)

    def shown(self):
        """What a page shows of them; None where nothing is promised."""
        if not self._of:
            return None
        return {"of": self._of, "looked": self.looked, "broken": self.broken}


class _Answers:
    """The answers of a piece, by the events counted from the first piece on."""

    def __init__(self, base, answers):
        self._base = base
        self._answers = answers

    def __getitem__(self, event):
        return self._answers[event - self._base]


class _Tables:
    """The entry of a bench by (seat, host)."""

    def __init__(self, bench):
        self._run = bench.entries

    def __getitem__(self, place):
        seat, host = place
        return Entry(*self._run[seat * PLACES + host][: len(Entry._fields)])
