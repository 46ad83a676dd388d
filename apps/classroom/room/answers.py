"""The answers in words, read once from docs/answers.txt."""

from pathlib import Path

_LIST = Path(__file__).resolve().parents[3] / "docs" / "answers.txt"
_COLUMNS = ("number", "name", "by", "meaning", "changes")


def _read():
    rows = _LIST.read_text(encoding="utf-8").splitlines()
    rows = [dict(zip(_COLUMNS, row.split("\t"))) for row in rows if not row.startswith("#")]
    return {int(row["number"]): {**row, "number": int(row["number"])} for row in rows}


ANSWERS = _read()
"""By its number each answer: number, name, by (the calls that give it), meaning, changes."""


def in_words(answer):
    """An answer as a reply tells it."""
    returned = ANSWERS[answer]
    return {
        "answer": answer,
        "name": returned["name"],
        "meaning": returned["meaning"],
        "changed_as_told": returned["changes"],
    }
