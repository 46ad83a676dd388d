"""All that a student's page asks for: its calls, its predictions, the student's name."""

from . import lesson
from .exercises import FORETELL
from .predict import PREDICT
from .student import STUDENT

PUPIL = {**STUDENT, **PREDICT, **FORETELL, "name": (lesson.name, ("name",), ())}
"""By its name: what does it, the keys that the message needs, the keys that it may have."""
