"""An exercise on paper: the task with space for what students expect, and its solution on a sheet of its own.

Everything comes from the exercise's text, by `sheet`.
"""

from html import escape

from ..room import Refused
from ..room.exercises import sheet
from ..room.texts import ENGLISH
from .paper import Paper


def exercise(room, number, language=ENGLISH):
    """An exercise as a page to be printed; Refused if there is none of that number."""
    made = sheet(number, language, room.own_exercises)
    if made is None:
        raise Refused("refused.no_exercise_of", number=number)
    title = escape(f"{number}. {made['title']}")
    paper = Paper(language)
    return paper.document(title, _task(paper, title, made), _solution(paper, title, made))


def _task(paper, title, made):
    parts = "".join(
        f"<p><strong>{paper.say(f'exercise.{name}')}</strong> {escape(made[name])}</p>"
        for name in ("task", "question", "law")
        if made[name]
    )
    stages = "".join(_stage(paper, made, stage) for stage in made["stages"])
    return f'<h1>{title}</h1>{parts}{_hosts(paper, made)}<ol class="boxes">{stages}</ol>'


def _hosts(paper, made):
    rows = [
        (host["name"], host["id"], host["address"], f"{host['difference']:+} ms", _cables(paper, made, host["seat"]))
        for host in made["hosts"]
    ]
    columns = [paper.say(f"paper.{name}") for name in ("host", "id", "address", "clock", "cables")]
    return paper.table(rows, paper.say("paper.hosts"), columns)


def _cables(paper, made, seat):
    """The cables of a host in words: link 1 to Ben."""
    names = [host["name"] for host in made["hosts"]]
    ends = [pair for cable in made["cables"] for pair in (cable, cable[::-1])]
    mine = [(link, names[other]) for (at, link), (other, _) in sorted(ends) if at == seat]
    return ", ".join(paper.say("paper.cable", link=link, name=name) for link, name in mine)


def _stage(paper, made, stage):
    names = {host["id"]: host["name"] for host in made["hosts"]}
    asked = "".join(
        f"<p>{_asked(paper, names, each)}</p>"
        '<p class="blank"></p>'
        for each in stage["predict"]
    )
    return f'<li class="box"><p>{escape(stage["words"])}</p>{asked}</li>'


def _asked(paper, names, each):
    host = names.get(each["host"], str(each["host"]))
    return paper.say("exercise.entry", host=host, seat=names[each["seat"]], field=", ".join(each["fields"]))


def _solution(paper, title, made):
    stages = "".join(
        f"<li><strong>{escape(stage['words'])}</strong> {escape(stage['outcome'] or '')}</li>" for stage in made["stages"]
    )
    return f"<h1>{title}: {paper.say('paper.solved')}</h1><ol>{stages}</ol><p>{escape(made['explanation'])}</p>"
