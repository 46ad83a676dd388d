"""What the binding for Python says of a text or a file, in English, as texts of the language files.

The binding knows no language. Its sentences are those of the keys `wrong.` and `wrong_part.` with their
values filled in, and are found again by that.
"""

import re

from .texts import catalog

LONGEST = 500
"""Longer sentences hold a long word of the text itself, and are not looked for."""
_NUMBER = re.compile(r"-?[0-9]{1,3}(,[0-9]{3}){0,4}|-?[0-9]{1,15}")
_BRACES = re.compile(r"\{(\w+)\}")


def _patterns(prefix):
    """Key and pattern of each text, those with the most words of their own first."""
    texts = {key: text for key, text in catalog("en").items() if key.startswith(prefix)}
    made = []
    for key, text in texts.items():
        parts = _BRACES.split(text)
        pattern = "".join(f"(?P<{part}>.+?)" if k % 2 else re.escape(part) for k, part in enumerate(parts))
        made.append((key, re.compile(pattern, re.DOTALL), sum(map(len, parts[::2]))))
    return sorted(made, key=lambda each: -each[2])


_SENTENCES = _patterns("wrong.")
_PARTS = _patterns("wrong_part.")


def text_of(words):
    """The words of a sentence as a text; words that are none of the language files' stay as they are."""
    found = _found(words, _SENTENCES) if len(words) <= LONGEST else None
    return found or ["words", {"words": words}]


def _found(words, patterns):
    for key, pattern, _ in patterns:
        found = pattern.fullmatch(words)
        if found:
            return [key, {name: _value(value) for name, value in found.groupdict().items()}]
    return None


def _value(words):
    if _NUMBER.fullmatch(words):
        return int(words.replace(",", ""))
    return _found(words, _PARTS) or words
