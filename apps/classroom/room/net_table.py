"""The class's net table as it is shown, and what changed between two of them."""

from .fields import dotted


def shown(table):
    """The table: the class's NHOSTS, and its rows, numbered from 1."""
    rows = enumerate(table.rows, 1)
    return {
        "nhosts": table.nhosts,
        "rows": [{"row": number, "net": dotted(net), "id": id} for number, (net, id) in rows],
    }


def changes(before, after):
    """What changed, each with its place, its field, and the values before and after: None of a row
    that does not stand."""
    parts = [("net table", "NHOSTS", before["nhosts"], after["nhosts"])]
    for row in range(max(len(before["rows"]), len(after["rows"]))):
        old, new = (table["rows"][row] if row < len(table["rows"]) else {} for table in (before, after))
        parts.append((f"row {row + 1}", "net", old.get("net"), new.get("net")))
        parts.append((f"row {row + 1}", "host id", old.get("id"), new.get("id")))
    return [
        {"where": where, "field": field, "before": old, "after": new}
        for where, field, old, new in parts
        if old != new
    ]
