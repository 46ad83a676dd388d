"""The journal of a class: what its room was asked for, in order.

A room is a function of its journal: the same inputs, made again, make the same calls and give the same
replies. So nothing in a room reads the machine's clock, and every chance has a seed of the set-up.
"""

TEACHER = "/teacher"
SEAT = "/seat/"
TIME = "time"
BRANCH = "branch"
"""By whom an input is: the teacher's page, a seat's page, the room's time, or the server, that lets an
earlier room go on from one of its calls."""


def make(room, by, asked):
    """Makes an input: the reply to a message; None if time goes on, by that many ms at each step."""
    if by == TIME:
        for ms in asked:
            room.go_on(room.now + ms)
        return None
    if by == TEACHER:
        return room.teacher(asked)
    return room.seat(int(by.removeprefix(SEAT)), asked)


def again(room, by, asked):
    """Makes an input of a journal again: the reply, or None if it failed, as it did then."""
    try:
        return make(room, by, asked)
    except Exception:
        return None


def branched(room, before):
    """An earlier room that goes on in place of the one before: paused, as a new room. What the lesson
    knows of the students stays, and so do the bench and the number of the rooms."""
    room.number = before.number + 1
    room.running = False
    room.lesson = before.lesson
    room.bench = before.bench
    return room
