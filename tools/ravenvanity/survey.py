"""How many places of a row a pitch disturbs, and which: the proved library's answer in words and as a row of marks.

The first line has the three counts: clean places are converted with no report entry due, due ones with one, and the
others are refused. Then the row, if any place is disturbed: . clean, o due, x refused. Up to 1024 places each has its
mark. In a longer row a mark is for as many places as the line above the row says, and shows the worst of them. A line of
the row starts with the number of its first place.
"""
from . import proved, refusal

LINE, LINES = 64, 16  # marks in a line, and lines, at most
MOST = 2**32 - 1  # places that the library's argument holds


def marks(library, policy, d, pitch, n, each):
    """A mark for every run of `each` places: what the counts grow by from its first place to its last."""
    row, before = "", (0, 0)
    for end in [*range(each, n, each), n]:
        _, _, due, refused = proved.survey_pitch(library, policy, d, pitch, end)
        row += "x" if refused > before[1] else "o" if due > before[0] else "."
        before = due, refused
    return row


def picture(library, policy, d, pitch, n):
    each = -(-n // (LINE * LINES))
    row = marks(library, policy, d, pitch, n, each)
    yield f"a mark is {'one place' if each == 1 else f'{each} places'}: . clean, o due, x refused"
    for start in range(0, len(row), LINE):
        yield f"{start * each:5}  {row[start:start + LINE]}"


def told(library, policy, d, pitch, n):
    """(the answer in words, whether it is a refusal)"""
    number, clean, due, refused = proved.survey_pitch(library, policy, d, pitch, n)
    if number:
        return f"refusal {number}: {'the pitch is not finite' if number == 17 else refusal.TABLE[number][1]}", True
    row = ["no place is disturbed"] if clean == n else picture(library, policy, d, pitch, n)
    return "\n".join([f"clean {clean}, due {due}, refused {refused}", *row]), False
