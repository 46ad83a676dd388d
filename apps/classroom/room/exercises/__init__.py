"""The exercises of a class, each read from its text in apps/exercises/, or from one of the teacher's.

    exercise = catalog.EXERCISES[1]             # by its number
    course = Course(exercise, students=16)      # eight pairs
    room.begin(course.set_up(), course)
    course.next(room)                           # one stage, at all copies
"""

from .catalog import EXERCISES, OWN, sheet
from .course import Course
from .predicted import FORETELL
from .messages import EXERCISE_MESSAGES
from .shown import for_student, for_teacher, listed

__all__ = ["EXERCISES", "EXERCISE_MESSAGES", "FORETELL", "OWN", "Course", "for_student", "for_teacher", "listed", "sheet"]
