"""What students expect of a stage: written before the stage is over, and marked against the tables when it is.

The values come from the tables that the library has made. Nobody is sent them before.
"""

from ..checks import Refused, members, whole

MOST = 10**6


def asked(copy):
    """The fields that students of a copy are asked for at the stage under way: (Predict, field)."""
    if copy.ended:
        return []
    return [(each, field) for each in copy.segments[copy.at].predictions for field in each.fields]


def foretell(room, seat, message):
    """A student writes what she expects of the stage under way, once."""
    if room.lesson.predict == "off":
        raise Refused("refused.no_predictions")
    found = room.exercise and room.exercise.copy_of(seat.number)
    if not found:
        raise Refused("refused.no_exercise")
    copy, course = found[0], room.exercise
    stage = whole("stage", message["stage"], 0, copy.stages - 1)
    if stage != copy.stage:
        raise Refused("refused.other_stage")
    wanted = asked(copy)
    if not wanted:
        raise Refused("refused.nothing_asked")
    given = members("values", message["values"], len(wanted), len(wanted))
    given = [whole("a value", value, -MOST, MOST) for value in given]
    if (stage, seat.number) in copy.predicted:
        raise Refused("refused.expected_already")
    copy.predicted[stage, seat.number] = {"given": given, "marks": None}
    course.version += 1
    return {"stage": stage, "values": given}


def mark(room, copy, stage, predictions, tables):
    """The stage is over: marks what students have written of it."""
    for (of, place), prediction in copy.predicted.items():
        if of != stage:
            continue
        marks, rest = [], iter(prediction["given"])
        for each in predictions:
            entry = tables[each.seat, each.host]
            for field in each.fields:
                given, actual = next(rest), entry and getattr(entry, field)
                what = {"seat": copy.names[each.seat], "host": copy.host_name(each.host), "field": field.upper()}
                marks.append({**what, "given": given, "actual": actual, "right": given == actual})
        prediction["marks"] = marks
        right = all(each["right"] for each in marks)
        room.lesson.students[place].marked("exercise", f"stage {stage + 1}", 1, right, room)


def shown(room, copy, place):
    """What a student's page shows: what is asked of the stage under way, what she has written of it, and the
    marks of the stages that are over."""
    if room.lesson.predict == "off":
        return {"predict": [], "predicted": None, "marks": []}
    now = copy.predicted.get((copy.stage, place))
    over = sorted((stage, prediction["marks"]) for (stage, of), prediction in copy.predicted.items() if of == place and prediction["marks"])
    return {
        "predict": [
            {
                "seat": copy.numbers.seat(each.seat),
                "host": copy.numbers.host(each.host),
                "seat_name": copy.names[each.seat],
                "host_name": copy.host_name(each.host),
                "field": field.upper(),
            }
            for each, field in asked(copy)
        ],
        "predicted": now and now["given"],
        "marks": [{"stage": stage, "fields": marks} for stage, marks in over],
    }


FORETELL = {"foretell": (foretell, ("stage", "values"), ())}
"""By its name: what does it, the keys that the message needs, the keys that it may have."""
