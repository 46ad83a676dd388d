"""The boxes of an arrival: their places, their explanations in the language files, and the part of
RFC 891 that each carries out."""

CHECKLIST = [
    {"step": step, "line": line, "text": f"box.{step}{line or ''}", "section": f"3.3.3, {part}"}
    for step, line, part in (
        (1, None, "INPUT-PACKET 1"),
        (2, None, "INPUT-PACKET 2"),
        (3, None, "INPUT-PACKET 3"),
        (4, None, "INPUT-PACKET 4"),
        (5, None, "INPUT-PACKET 5"),
        (5, "a", "UPDATE 1"),
        (5, "b", "UPDATE 2"),
        (5, "c", "UPDATE 3"),
        (5, "d", "UPDATE 4"),
    )
]
