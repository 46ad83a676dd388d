"""The events of a bench file in words: texts of the language files."""


def in_words(file):
    """Each event of a file."""
    filled = {}
    returned = []
    for number, event in enumerate(file.events):
        returned.append(_counted(event, _event(file, event, filled)))
        if event.kind == "send":
            filled[event.tray] = number
    return returned


def _event(file, event, filled):
    if event.kind == "send":
        seat, link = file.cables[event.cable].ends[event.end]
        return ["event.send", {"seat": seat, "link": link, "cable": event.cable, "tray": event.tray}]
    if event.kind == "arrival":
        before = filled.get(event.tray)
        if before is None:
            return ["event.arrival", {"tray": event.tray}]
        return ["event.arrival.of", {"tray": event.tray, "event": before}]
    call = [f"call.{event.kind.replace('-', '_')}", {}]
    if event.amount is None:
        return ["event.call", {"seat": event.seat, "call": call}]
    return ["event.call.by", {"seat": event.seat, "call": call, "ms": event.amount}]


def _counted(event, words):
    """The event with its reading of the counter, if it has one."""
    if event.again is not None:
        return ["event.overflowed", {"event": words, "count": event.count, "again": event.again}]
    return ["event.counted", {"event": words, "count": event.count}] if event.count else words


def arrived(file, slot):
    """Where the packet of a slot arrives."""
    (seat, link), sender = (file.cables[slot.cable].ends[end] for end in (1 - slot.end, slot.end))
    return ["event.way", {"from": sender[0], "from_link": sender[1], "to": seat, "to_link": link}]


def host_names(file):
    """By its id each host: the seat at which it lives, or None."""
    homes = {}
    for number, seat in enumerate(file.seats):
        homes.update({id: ["bench.at_seat", {"seat": number}] for id in seat.also if id not in homes})
    homes.update({seat.own_id(): ["bench.seat", {"seat": number}] for number, seat in enumerate(file.seats)})
    nhosts = file.seats[0].nhosts if file.seats else 0
    return [homes.get(id) for id in range(nhosts)]
