"""A stage in parts: calls and waits, and what is promised after them."""

import bisect

from hello.bench_file import Call, Wait

KINDS = {
    "self_report": "self-report",
    "second": "second",
    "adjust": "adjust",
    "set": "set",
    "send": "send",
    "receive": "arrival",
    "open_walk": "open-walk",
    "step": "step",
}
"""The calls of a room that an exercise may ask for, by their names."""


def key_of(call):
    """What calls have to agree in to count as one that the exercise asks for."""
    return (call.kind, call.seat, call.amount if call.kind == "set" else call.link)


class Segment:
    """Some steps of a stage, and the promises after them.

    steps   calls and waits in their order
    asked   by its key the calls, in their order
    before  of each call how many times calls of its key come before it
    total   by its key how many times calls are asked for
    predictions  what students are asked to predict of the stage
    """

    def __init__(self, stage, predictions):
        self.stage = stage
        self.predictions = predictions
        self.steps = []
        self.promises = []
        self.asked = {}
        self.before = {}
        self.total = {}

    def add(self, step):
        """Takes a call or a wait."""
        self.steps.append(step)
        if isinstance(step, Call):
            key = key_of(step)
            self.before[step] = self.total.get(key, 0)
            self.total[key] = self.before[step] + step.times
            self.asked.setdefault(key, []).append(step)

    def next(self, key, done):
        """The calls of a key that are asked for after `done` times, the first one first."""
        calls = self.asked.get(key, ())
        first = bisect.bisect_right(calls, done, key=self.before.get) - 1
        return calls[max(first, 0) :] if done < self.total.get(key, 0) else ()

    def matching(self, key, done, answer, times):
        """How many of `times` calls with that answer are asked for next, after `done` of the key."""
        matched = 0
        for call in self.next(key, done):
            if call.answer != answer or matched == times:
                break
            matched += min(times - matched, self.before[call] + call.times - done - matched)
        return matched


def segments(exercise):
    """The segments of all stages, in their order."""
    found = []
    for number, stage in enumerate(exercise.stages):
        found.append(Segment(number, stage.predictions))
        for step in stage.steps:
            if not isinstance(step, (Call, Wait)):
                found[-1].promises.append(step)
                continue
            if found[-1].promises:
                found.append(Segment(number, stage.predictions))
            found[-1].add(step)
    return found
