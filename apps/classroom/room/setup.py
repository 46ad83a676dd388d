"""What a room is to be: the checks of a set-up, and the settings that follow from it."""

import hello

from .checks import Refused, keys, members, name, switch, whole

SEATS = hello.HOSTS
CABLES = 32
HOSTS = 32
"""This many hosts a room's tables have at most."""
DAY = 86_400_000
LONGEST_WAY = 60_000
OVERFLOW = 65_536
"""The ms after which a crystal's counter overflows."""
HOLD_INTERVAL = 10
FIRST_DAY = (1984, 1, 31)
FIRST_DATE = 1 << 10 | 31 << 5 | 12
"""The DATE word of FIRST_DAY."""


def checked(given):
    """The set-up in full, each part of it checked."""
    keys("the set-up", given, ("seats", "cables"), ("interval", "seed", "time", "nhosts"))
    seats = members("seats", given["seats"], 1, SEATS)
    time = whole("time", given.get("time", 43_200_000), 0, DAY - 1)
    least = 1 + max([len(seats) - 1] + _further(seats))
    nhosts = whole("nhosts", given.get("nhosts", least), least, HOSTS)
    seats = [_seat(number, seat, time, nhosts) for number, seat in enumerate(seats)]
    cables = [_cable(cable, len(seats)) for cable in members("cables", given["cables"], 0, CABLES)]
    ends = [tuple(end) for cable in cables for end in cable["ends"]]
    if len(set(ends)) != len(ends):
        raise Refused("refused.same_link")
    further = [id for seat in seats for id in seat["also"]]
    if len(set(further)) != len(further):
        raise Refused("refused.one_seat")
    return {
        "seats": seats,
        "cables": cables,
        "interval": whole("interval", given.get("interval", 5), 1, 60),
        "seed": whole("seed", given.get("seed", 1), 0, 2**32 - 1),
        "time": time,
        "nhosts": nhosts,
    }


def _further(seats):
    """The ids of the hosts that live at a seat beside its own."""
    also = [seat.get("also", []) if type(seat) is dict else [] for seat in seats]
    ids = [id for of in also for id in members("also", of, 0, HOSTS)]
    return [whole("a further host's id", id, len(seats), HOSTS - 1) for id in ids]


def _seat(number, given, time, nhosts):
    keys("a seat", given, (), ("name", "difference", "crystal", "by_hand", "clock_host", "also"))
    clock_host = given.get("clock_host")
    seat = {
        "name": name("name", given.get("name", f"seat {number}"), 24),
        "difference": whole("difference", given.get("difference", 0), -DAY, DAY),
        "crystal": switch("crystal", given.get("crystal", False)),
        "by_hand": switch("by_hand", given.get("by_hand", False)),
        "also": given.get("also", []),
        "clock_host": clock_host
        if clock_host is None
        else whole("clock_host", clock_host, 0, nhosts - 1),
    }
    if not 0 <= time + seat["difference"] < DAY:
        raise Refused("refused.outside_day", seat=number)
    return seat


def _cable(given, seats):
    keys("a cable", given, ("ends", "ways"), ("loss",))
    ends = [_end(end, seats) for end in members("ends", given["ends"], 2, 2)]
    if ends[0][0] == ends[1][0]:
        raise Refused("refused.same_seat")
    return {"ends": ends, **conditions(given["ways"], given.get("loss", [0, 0]))}


def _end(given, seats):
    seat, link = members("an end", given, 2, 2)
    return [whole("seat", seat, 0, seats - 1), whole("link", link, 1, hello.LINKS)]


def conditions(ways, loss):
    """A cable's times and losses, from the first end to the second and back."""
    ways = [_way(way) for way in members("ways", ways, 2, 2)]
    loss = [whole("loss", percent, 0, 100) for percent in members("loss", loss, 2, 2)]
    return {"ways": ways, "loss": loss}


def _way(given):
    least, most = members("a way", given, 2, 2)
    least = whole("the least time", least, 0, LONGEST_WAY)
    return [least, whole("the most time", most, least, LONGEST_WAY)]


def links_of(set_up, seat):
    """How many links the seat has: up to the last one with a cable, and one at least."""
    ends = [end for cable in set_up["cables"] for end in cable["ends"]]
    return max([1] + [link for at, link in ends if at == seat])


def class_of(set_up):
    """The class of a set-up: its net table, still to be set afresh, and its hosts, one for each seat,
    still to be initialized."""
    room = hello.Room(len(set_up["seats"]), nhosts=0)
    numbers = range(len(set_up["seats"]))
    return room.net_table, [room.host(number, _settings(set_up, number)) for number in numbers]


def _settings(set_up, number):
    seat = set_up["seats"][number]
    clock_host = seat["clock_host"]
    return hello.Settings(
        address=address_of(number),
        address_offset=1,
        nhosts=set_up["nhosts"],
        marks={number, *seat["also"]},
        clock_host=hello.NO_CLOCK_HOST if clock_host is None else clock_host,
        hold_interval=HOLD_INTERVAL,
        clock_tick=tick_of(seat),
        time=set_up["time"] + seat["difference"],
        date=FIRST_DATE,
        links=links_of(set_up, number) * (hello.LinkSetting(),),
    )


def tick_of(seat):
    """CLOCK-TICK of a seat in units: a crystal's, or a line clock's."""
    return (OVERFLOW if seat["crystal"] else 1) * hello.UNITS_PER_MS


def address_of(number):
    """The address of the seat of that number."""
    return hello.Address(192, 0, 2, number + 1)


def ring(seats):
    """A first room: that many hosts in a ring, with clocks that differ, working by themselves."""
    names = ["Ada", "Ben", "Cleo", "Dan", "Eva", "Finn", "Gita", "Hugo"]
    names += ["Ines", "Jan", "Kira", "Leo", "Mara", "Nils", "Olga", "Paul"]
    differences = [0, 500, -1_200, 3_000]
    back = 2 if seats > 2 else 1
    return {
        "seats": [
            {"name": names[k], "difference": differences[k % 4], "crystal": k % 4 == 3}
            for k in range(seats)
        ],
        "cables": [
            {"ends": [[k, 1], [(k + 1) % seats, back]], "ways": [[10, 40], [10, 40]]}
            for k in range(seats if seats > 2 else seats - 1)
        ],
    }
