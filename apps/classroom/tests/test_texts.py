"""Tests of the language files: each language has every text, with the same values; every key that the
pages, the room and the server use is there; and the pages' files have no text of their own."""

import ast
import re
import unittest
from html.parser import HTMLParser

from classroom.room.answers import ANSWERS
from classroom.room.found_texts import text_of
from classroom.room.texts import LANGUAGES, WEB, catalog, written

ROOM = WEB.parent / "room"
SERVER = WEB.parent / "server"
BINDING = WEB.parents[2] / "bindings" / "python" / "hello" / "bench_file"
# Keys that are put together: their first parts.
MADE = (
    *("sum.", "hint.", "term.", "field.", "call.", "returned.", "links.", "clock.", "table.", "nets.", "answers.", "board."),
    *("matrix.", "shape.", "promise.", "exercise.", "box.", "picture.", "needs.", "fault.", "walk.boxes", "messages."),
    *("setup.in.", "where.", "changed.", "part.", "wrong.", "wrong_part.", "paper.", "bench.", "language."),
)


def used():
    """The keys that stand in the pages' files."""
    found = set()
    for path in WEB.glob("*.js"):
        found |= set(re.findall(r'\bt\(\s*"([^"]+)"', path.read_text()))
        found |= set(re.findall(r'\bt\([^()"]*\? "([^"]+)"', path.read_text()))
    for path in WEB.glob("*.html"):
        found |= set(re.findall(r'data-(?:text|title|label|placeholder)="([^"]+)"', path.read_text()))
    for path in (*ROOM.rglob("*.py"), *SERVER.glob("*.py")):
        kinds = "needs|fault|sum\\.send|refused|page|paper|stopped|event|text|notice|room"
        found |= set(re.findall(rf'"((?:{kinds})\.[a-z_.]+)"', path.read_text()))
    return {key for key in found if re.fullmatch(r"\w+\.[\w.-]+", key)}


class Languages(unittest.TestCase):
    def test_each_has_all(self):
        english = catalog("en")
        for language in LANGUAGES:
            other = catalog(language)
            self.assertEqual(sorted(other), sorted(english), language)
            for key, text in other.items():
                self.assertEqual(values(text), values(english[key]), (language, key))
                self.assertTrue(text.strip(), key)

    def test_every_key_is_there(self):
        missing = sorted(key for key in used() if key not in catalog("en"))
        self.assertEqual(missing, [])

    def test_hints_and_boxes(self):
        """Each field that is asked at a box has a hint and a name, and each box its words."""
        from classroom.room.checklist import CHECKLIST
        from classroom.room.predict import _OF_BOX

        english = catalog("en")
        for (step, line), fields in _OF_BOX.items():
            for field in fields:
                self.assertIn(f"hint.{line or step}.{field.replace(' ', '_')}", english)
                self.assertIn(f"field.{field.replace(' ', '_')}", english)
        for box in CHECKLIST:
            self.assertIn(box["text"], english)
            self.assertIn("3.3.3", box["section"])

    def test_no_text_is_left_over(self):
        """A text that nothing uses is no text."""
        written = "".join(path.read_text() for path in (*WEB.glob("*.js"), *WEB.glob("*.html")))
        written += "".join(path.read_text() for path in (*ROOM.rglob("*.py"), *SERVER.glob("*.py")))
        over = [key for key in catalog("en") if key not in written and not key.startswith(MADE)]
        self.assertEqual(over, [])


class Answers(unittest.TestCase):
    def test_english(self):
        """The answers are those of docs/answers.txt."""
        english = catalog("en")
        for number, answer in ANSWERS.items():
            self.assertEqual(english[f"answers.{number}.meaning"], answer["meaning"])
            self.assertEqual(english[f"answers.{number}.changes"], answer["changes"])
        numbers = {int(key.split(".")[1]) for key in english if re.match(r"answers\.[0-9]", key)}
        self.assertEqual(numbers, set(ANSWERS))


class Faults(unittest.TestCase):
    def test_sentences_of_the_binding(self):
        """Each sentence that the binding raises is found again as a text, with its values."""
        for sentence in sentences():
            key, values = text_of(sentence)
            self.assertNotEqual(key, "words", sentence)
            self.assertEqual(written([key, values]), sentence)

    def test_values(self):
        key, values = text_of("seat 70 is not there: there are seats 0 to 3")
        self.assertEqual((key, values["number"]), ("wrong.not_there", 70))
        self.assertEqual(written([key, values], "de"), "Platz 70 ist nicht da: es gibt Platz 0 bis 3")
        for words in ("nobody says this", 9_999 * "a is " + "missing: 3"):
            self.assertEqual(text_of(words), ["words", {"words": words}])
        self.assertEqual(text_of(f"'{400 * '9'}' stands there twice")[1], {"name": 400 * "9"})


def sentences():
    """The sentences of `raise Fault(..)` and of a room's faults, with a word for each value."""
    trees = [ast.parse(path.read_text()) for path in (BINDING / "reader.py", BINDING / "file.py", BINDING / "octets.py")]
    for tree in trees:
        for node in ast.walk(tree):
            if isinstance(node, ast.Raise) and isinstance(node.exc, ast.Call) and node.exc.func.id == "Fault":
                yield from _sentence(node.exc.args[0])
    for node in ast.walk(ast.parse((ROOM / "exercises" / "fitting.py").read_text())):
        if isinstance(node, ast.Yield) and isinstance(node.value, ast.Tuple):
            yield from _sentence(node.value.elts[1])


def _sentence(node):
    if isinstance(node, ast.Constant):
        yield node.value
    elif isinstance(node, ast.JoinedStr) and isinstance(node.values[0], ast.Constant):
        known = {"BETWEEN": "only events are repeated"}
        parts = (part.value if isinstance(part, ast.Constant) else known.get(ast.unparse(part.value), "x") for part in node.values)
        yield "".join(parts)


class Page(HTMLParser):
    """The words of a page that no key gives."""

    def __init__(self):
        super().__init__()
        self.found = []

    def handle_starttag(self, tag, attrs):
        self.found += [value for name, value in attrs if name in ("title", "aria-label", "placeholder", "alt")]

    def handle_data(self, data):
        self.found.append(data)


class Pages(unittest.TestCase):
    """All that a reader sees comes from the language files."""

    def test_html(self):
        for path in WEB.glob("*.html"):
            page = Page()
            page.feed(path.read_text())
            self.assertEqual([words for words in page.found if re.search("[A-Za-z]{2}", words)], [], path.name)

    def test_scripts(self):
        """No string of a script is words: two words with a space between, or a capital and small letters."""
        for path in WEB.glob("*.js"):
            text = re.sub(r"(?m)^\s*(//.*|import .*|export \{.*)$", "", path.read_text())
            text = re.sub(r'class: ("[^"]*"|`[^`]*`)', "", text)
            found = re.findall(r'"([^"\n]*)"', text) + re.findall(r"`([^`]*)`", text)
            words = [each for each in found if PROSE.search(re.sub(r"\$\{[^{}]*(\{[^{}]*\}[^{}]*)*\}", " ", each))]
            self.assertEqual([each for each in words if each not in NO_WORDS], [], path.name)


# A small letter, a space and a letter; or a capital with small letters after it.
PROSE = re.compile(r"[a-z]{2,},? [a-z]{2,}|^[A-Z][a-z]+( |$)|: [a-z]{3}")
# Strings that no reader sees: classes, selectors, fonts, names of keys of the keyboard.
NO_WORDS = {
    *("said refusal", "verdict right", "verdict wrong", "dot outside", "done wrong"),
    *("#seat td.changed", "input, select", "input, select, textarea, [contenteditable]"),
    "[role=tabpanel] > .row select, [role=tabpanel] > .row input",
    *("system-ui, 'Segoe UI', Roboto, 'Helvetica Neue', Arial, sans-serif", "Enter", "row ${now.row}/host id"),
}


def values(text):
    return sorted(set(re.findall(r"\{(\w+)\}", text)))


if __name__ == "__main__":
    unittest.main()
