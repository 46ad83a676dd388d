"""The texts that people read: web/words-en.json and so on, one file for each language.

A text is a key and its values, [key, values]. A page writes it in the reader's language; printed sheets
and refusals are written here.
"""

import json
from pathlib import Path

WEB = Path(__file__).resolve().parent.parent / "web"
LANGUAGES = ("en", "de")
ENGLISH = LANGUAGES[0]
_THOUSANDS = {"en": ",", "de": "."}


def catalog(language):
    """All texts of a language, by their keys."""
    return json.loads((WEB / f"words-{language}.json").read_text(encoding="utf-8"))


_CATALOGS = {language: catalog(language) for language in LANGUAGES}


def has(key):
    """Whether there is a text of that key."""
    return key in _CATALOGS[ENGLISH]


def written(text, language=ENGLISH):
    """A text, [key, values], in a language. A value may be a number, words, a text, or a list of texts,
    which has a line for each."""
    key, values = text
    return _CATALOGS[language][key].format_map({name: _value(value, language) for name, value in values.items()})


def _value(value, language):
    if type(value) is int:
        return f"{value:,}".replace(",", _THOUSANDS[language])
    if type(value) is list:
        texts = value if not value or type(value[0]) is list else [value]
        return "\n".join(written(each, language) for each in texts)
    return str(value)


def english(text):
    """A text in English, for the list of calls and for tests."""
    return written(text)
