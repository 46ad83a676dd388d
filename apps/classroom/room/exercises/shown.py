"""What the pages show of an exercise. What comes of a stage is shown after it alone. What people read is sent in
all languages that the text has, by their two letters."""

from . import predicted
from .catalog import EXERCISES

def listed(room):
    """The exercises with their numbers, titles and numbers of hosts; own ones last."""
    every = {**EXERCISES, **room.own_exercises}
    return [
        {
            "number": number,
            "title": every[number].exercise.words["title"],
            "hosts": len(every[number].exercise.file.seats),
            "own": number not in EXERCISES,
        }
        for number in sorted(every)
    ]


def for_teacher(room):
    """The exercise as the teacher's page shows it, with the results of every copy."""
    course = room.exercise
    view = _words(course, course.stage, course.ended)
    left = course.students - len(course.copies) * len(course.exercise.file.seats)
    view.update(
        students=course.students,
        observers=max(0, left),
        copies=[
            {
                "copy": copy.number,
                "seats": list(copy.seats),
                "names": copy.names,
                "stage": copy.stage,
                "right": copy.right,
                "results": _results(copy),
            }
            for copy in course.copies
        ],
        stages=[_stage(course, number, number < course.stage) for number in range(course.stage + 1)],
    )
    return view


def for_student(room, place):
    """The exercise as a student's page shows it; None if she has no part in one."""
    course = room.exercise
    found = course and course.copy_of(place)
    if not found:
        return None
    copy, observes = found
    view = _words(course, copy.stage, copy.ended)
    partners = [
        {"seat": seat, "part": course.exercise.names[seat - copy.numbers.base], "name": room.student_name(seat)}
        for seat in copy.seats
    ]
    view.update(
        copy=copy.number,
        copies=len(course.copies),
        observes=observes,
        part=None if observes else course.exercise.names[place - copy.numbers.base],
        partners=[partner for partner in partners if partner["seat"] != place],
        right=copy.right,
        results=_results(copy),
        stages=[_stage(course, number, number < copy.stage) for number in range(copy.stage + 1)],
        **predicted.shown(room, copy, place),
    )
    return view


def _words(course, stage, ended):
    exercise = course.exercise
    return {
        "number": course.listed.number,
        **{name: exercise.words.get(name) for name in ("title", "task", "question", "law")},
        "hints": list(exercise.hints),
        "at": stage,
        "of": len(exercise.stages),
        "ended": ended,
        "explanation": exercise.words["explanation"] if ended else None,
    }


def _stage(course, number, done):
    """A stage in words; what comes of it only if it is done. None after the last one."""
    if number >= len(course.exercise.stages):
        return None
    stage = course.exercise.stages[number]
    return {"words": stage.words, "outcome": stage.outcome if done and stage.outcome else None}


def _results(copy):
    """Of each stage that is done, and of the one under way as far as it is: right, and the checks."""
    return [_result(result) for result in copy.results[: copy.stage + 1]]


def _result(result):
    calls, promises = result.calls, result.promises
    shown = [*calls.wrong, *promises.wrong]
    if calls.right > len(calls.kept):
        right = calls.right == calls.count
        shown.append({"what": ["exercise.calls", {}], "expected": calls.count, "actual": calls.right, "right": right})
    else:
        shown += calls.kept
    shown += promises.kept
    more = promises.right - len(promises.kept)
    more += sum(checks.count - checks.right - len(checks.wrong) for checks in (calls, promises))
    return {"right": result.right, "checks": shown, "more": more}
