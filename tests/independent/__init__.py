"""An independent program for the case files of documents 01 and 02, in whole numbers and exact fractions."""

from .answering import Answer, answer, answer_to_case
from .casefile import Case, Hull, Refusal, Result, Row, Stage, reading
from .printing import exact_text, figures, group_numbers, groups_text, printed, required_of, required_text, row_numbers, rows_text, total_text
from .rounding import Ends
from .settling import settled_text

__all__ = [
    "Answer", "Case", "Ends", "Hull", "Refusal", "Result", "Row", "Stage",
    "answer", "answer_to_case", "exact_text", "figures", "group_numbers", "groups_text", "judge", "printed", "reading", "required_of",
    "required_text", "row_numbers", "rows_text", "run", "settled_text", "total_text",
]


def run(data, sheet=None):
    """The bytes that the program damindex must print for these bytes of input."""
    return printed(answer(data, sheet)).encode("ascii")


def judge(data):
    """The refusal's number and line, or zeros for an accepted file."""
    read = reading(data)
    return tuple(read) if isinstance(read, Refusal) else (0, 0)
