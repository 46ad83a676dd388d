"""Where a text that the library refused is at fault. The library is asked about parts of the text: no
rule of the form is written here again."""

import re

from hello import Answer, Refused, text as reader

NUMBER = re.compile(r"-?[0-9]+")


def fault(text, answer):
    """What 14 or 15 found and where: a text of the language files, or None."""
    if answer == Answer.FIELD_RANGE:
        return _range(text)
    return _form(text) if answer == Answer.TEXT_FORM else None


def _answer(text):
    """The library's answer to a text."""
    try:
        reader.from_text(text)
        return 0
    except Refused as refused:
        return refused.number


def _range(text):
    """The first number that is too great or too small: with all others 0 the text is still refused."""
    first, _, rest = text.partition("\n")
    lines = [first, *rest.splitlines()]
    for row, line in enumerate(lines):
        for place, found in enumerate(NUMBER.finditer(line), 1):
            if _answer(_alone(row, place, found.group())) == Answer.FIELD_RANGE:
                returned = {"line": row + 1, "number": found.group(), "place": place}
                return ["fault.range", returned]
    return None


def _alone(row, place, number):
    """A text of zeros with that number in its place."""
    if row:
        return "hello 0 0 0 0 1\n" + " ".join(number if k == place else "0" for k in (1, 2)) + "\n"
    return "hello " + " ".join(number if k == place else "0" for k in range(1, 6)) + "\n"


def _form(text):
    """The first line that has another form, the line end that is missing, or the count of lines."""
    if not text.endswith("\n"):
        return ["fault.no_end", {"line": text.count("\n") + 1}]
    first, *rest = text[:-1].split("\n")
    words = first.split(" ")
    if _answer(" ".join([*words[:-1], "0"]) + "\n") == Answer.TEXT_FORM:
        return ["fault.first", {"line": 1, "text": first[:60]}]
    for row, line in enumerate(rest, 2):
        if _answer(f"hello 0 0 0 0 1\n{line}\n") == Answer.TEXT_FORM:
            return ["fault.line", {"line": row, "text": line[:60]}]
    if words[-1].isdigit() and int(words[-1]) != len(rest):
        return ["fault.count", {"n": int(words[-1]), "lines": len(rest)}]
    return ["fault.first", {"line": 1, "text": first[:60]}]
