"""What the teacher prints: slips with codes, the blank checklist, a worksheet and its solution, all tables.

Each sheet is in the language of the page that asks for it."""

from html import escape

import qrcode

from ..room.checklist import CHECKLIST
from ..room.fields import dotted
from ..room.texts import has, written
from . import checkpoint
from .worksheet import worked

QUIET = 4
"""The light modules around a QR code."""


class Paper:
    """The sheets in one language."""

    def __init__(self, language):
        self._language = language

    def say(self, key, **values):
        """A text of the language files, for HTML."""
        return escape(written([key, values], self._language))

    def document(self, title, *sheets):
        """A page with a sheet of paper for each part."""
        body = "".join(f'<section class="sheet">{sheet}</section>' for sheet in sheets)
        return (
            f'<!doctype html><html lang="{self._language}"><head><meta charset="utf-8"><title>{title}</title>'
            '<link rel="icon" href="/web/icon.svg"><link rel="stylesheet" href="/web/print.css"></head>'
            f"<body>{body}</body></html>\n"
        )

    def table(self, rows, caption, columns):
        """A table; its cells are numbers, words or texts."""
        head = "".join(f"<th>{column}</th>" for column in columns)
        body = "".join("<tr>" + "".join(f"<td>{self._cell(cell)}</td>" for cell in row) + "</tr>" for row in rows)
        return f"<table><caption>{caption}</caption><thead><tr>{head}</tr></thead><tbody>{body}</tbody></table>"

    def _cell(self, cell):
        return self.say("words", words=cell)

    def slips(self, origin, addresses, codes, names, fingerprint):
        """A slip for each seat, to be cut out: where the class is, the code, and the address as a square."""
        made = "".join(
            f'<article class="slip" data-seat="{seat}"><div><h2>{self._seat(names, seat)}</h2>'
            f"<p>{self.say('paper.open')} <strong>{escape(origin)}/</strong></p>"
            f"<p>{self.say('paper.code')} <strong class=\"code\">{escape(codes.of(seat))}</strong></p>"
            f"<p>{self.say('paper.scan')}</p>{self._certificate(fingerprint)}</div>{self.square(address)}</article>"
            for seat, address in enumerate(addresses)
        )
        title = f"<h1>{self.say('paper.slips')}</h1>"
        return self.document(self.say("paper.slips"), f'{title}<div class="slips">{made}</div>')

    def _seat(self, names, seat):
        if seat < len(names):
            return self.say("paper.seat_host", seat=seat, name=names[seat])
        return self.say("paper.seat", seat=seat)

    def _certificate(self, fingerprint):
        if not fingerprint:
            return ""
        first, last = fingerprint[:47], fingerprint[48:]
        return f'<p class="small">{self.say("paper.certificate")}<br>{first}<br>{last}</p>'

    def square(self, text):
        """A text as a QR code: an SVG element."""
        code = qrcode.QRCode(error_correction=qrcode.constants.ERROR_CORRECT_M, border=QUIET)
        code.add_data(text)
        code.make(fit=True)
        rows = code.get_matrix()
        dark = "".join(f"M{x} {y}h1v1h-1z" for y, row in enumerate(rows) for x, on in enumerate(row) if on)
        size = len(rows)
        return (
            f'<svg class="square" viewBox="0 0 {size} {size}" role="img" aria-label="{self.say("paper.square")}">'
            f'<rect width="{size}" height="{size}" fill="#fff"/><path d="{dark}" fill="#000"/></svg>'
        )

    def checklist(self):
        """The boxes of section 3.3.3, with space to work in."""
        title = f"<h1>{self.say('paper.arrival')}</h1>"
        return self.document(self.say("print.checklist"), title + self._heads() + self._boxes())

    def _heads(self):
        blanks = "".join(f"<dt>{self.say(f'paper.{name}')}</dt><dd></dd>" for name in ("host", "link", "from", "reading"))
        return f'<dl class="heads">{blanks}</dl>'

    def _boxes(self):
        made = []
        for box in CHECKLIST:
            name = self.say("box.line", line=box["line"]) if box["line"] else self.say("box.step", step=box["step"])
            sort = "box line" if box["line"] else "box"
            rule = f'<p class="rule">{self.say(box["text"])}</p>'
            made.append(f'<li class="{sort}"><h3>{name}</h3>{rule}<p class="blank"></p><p class="blank"></p></li>')
        return f'<ol class="boxes">{"".join(made)}</ol>'

    def _entries(self, table, caption, blank=False):
        """A host table; `blank` leaves space to write in."""
        rows = [
            [id, *(5 * [""] if blank else (e.delay, e.offset, e.ttl, e.pid, e.time or "-"))] for id, e in enumerate(table)
        ]
        return self.table(rows, caption, (self.say("table.host"), "DELAY", "OFFSET", "TTL", "PID", self.say("paper.time")))

    def worksheet(self, room, number, message):
        """A worksheet on an arrival at a seat, and its solution on a sheet of its own. The room stays as
        it is: the arrival is worked on a copy. Refused if no message can be had there."""
        work = worked(checkpoint.copied(room), number, message)
        own = [
            ("LOCAL-ADDRESS", dotted(work.address)),
            (self.say("paper.link"), work.link),
            ("NEIGHBOR-ADDRESS", dotted(work.before.links[work.link - 1][0])),
            ("HOLD", work.before.clock[2]),
            (self.say("paper.reading"), work.reading),
        ]
        pair = (self.say("packet.field"), self.say("packet.value"))
        given = (
            f"<h1>{self.say('paper.worksheet', name=work.name)}</h1><p>{self.say('paper.work')}</p>"
            f'<div class="two">{self._packet(work.fields, pair)}<div>{self.table(own, self.say("paper.the_host"), pair)}'
            f"{self._entries(work.before.table, self.say('paper.before'))}"
            f"{self._entries(work.after.table, self.say('paper.after'), blank=True)}</div></div>"
        )
        solved = (
            f"<h1>{self.say('paper.solution', name=work.name)}</h1>"
            f"{self._steps(work.boxes)}{self._entries(work.after.table, self.say('paper.after'))}"
        )
        boxes = f"<h1>{self.say('paper.boxes')}</h1>{self._boxes()}"
        return self.document(self.say("print.worksheet"), given, boxes, solved)

    def _packet(self, fields, pair):
        """The fields of a packet, and in a table of their own those of the hosts in it."""
        heads = [(self.field(f["name"]), self._value(f["value"])) for f in fields if not f["name"].startswith("host ")]
        hosts = {}
        for field in fields:
            if field["name"].startswith("host "):
                hosts.setdefault(field["name"].split()[1], []).append(self._value(field["value"]))
        rows = [(id, *values) for id, values in hosts.items()]
        columns = (self.say("table.host"), "DELAY", "OFFSET")
        listed = self.table(rows, self.say("paper.hosts_in_it"), columns) if rows else ""
        return f"<div>{self.table(heads, self.say('predict.packet'), pair)}{listed}</div>"

    def _value(self, value):
        return written(value, self._language) if type(value) is list else value

    def field(self, name):
        """What a field is called: a name of the RFC stays."""
        key = f"changed.{name.replace(' ', '_')}"
        return written([key, {}], self._language) if has(key) else name

    def _steps(self, boxes):
        made = "".join(
            f"<li><h3>{self._place(box)}</h3><p>{'; '.join(self.say(key, **values) for key, values in box.texts)}</p>"
            f"{self._changes(box.changes)}</li>"
            for box in boxes
        )
        return f'<ol class="steps">{made}</ol>'

    def _place(self, box):
        if box.line:
            return self.say("place.line", id=box.id, line=box.line)
        return self.say("place.step", step=box.step)

    def _changes(self, changes):
        returned = [self._change(change) for change in changes if change["where"] != "walk"]
        return f'<p class="changes">{"; ".join(returned)}</p>' if returned else ""

    def _change(self, change):
        kind, _, number = change["where"].partition(" ")
        where = [f"where.{kind}", {"n": number}]
        values = {name: change[name] for name in ("before", "after")}
        return self.say("paper.change", where=where, field=self.field(change["field"]), **values)

    def tables(self, room):
        """All host tables on one sheet."""
        made = "".join(self._entries(seat.state.table, self.say("table.of", name=seat.name)) for seat in room.seats)
        sort = "tables many" if len(room.seats) > 6 else "tables"
        title = f"<h1>{self.say('paper.tables', ms=room.now)}</h1>"
        return self.document(self.say("print.tables"), f'{title}<div class="{sort}">{made}</div>')
