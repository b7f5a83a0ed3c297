"""The library, and a sheet checked by it: the answer is held to the sheet before anything is said of it."""

from functools import cache

from lashlib.build import BuildFailed
from lashlib.calls import loaded
from sheets.answer import BadAnswer, counts, counts_due, read_answer
from sheets.limits import findings
from sheets.sheet import Refused, parse


class CheckFailed(Exception):
    """The check could not be built or run, or a file not be written, with the reason."""


def library(path=None):
    """The proved library, or the one at a path."""
    try:
        return loaded(path)
    except BuildFailed as reason:
        raise CheckFailed(str(reason)) from None
    except (OSError, AttributeError) as error:
        raise CheckFailed(f"the library cannot be loaded: {error}") from None


def library_check(path=None, forecast=None):
    """The library's check, from a sheet's bytes to its reply; the one by a forecast, if there is one."""
    calls = library(path)
    return (lambda data: calls.forecast(data, *forecast.numbers)) if forecast else calls.check


def library_roll(path=None):
    """The library's accelerations from roll, from a condition to the reply; loaded when it is first asked, and once."""
    loaded_once = cache(library)
    return lambda *condition: loaded_once(path).roll(*condition)


def outcome(data, reply):
    """The sheet and the answer in a reply. A refusal is raised as Refused."""
    if reply.number:
        raise Refused(reply.number, reply.second)
    try:
        sheet, answer = parse(data), read_answer(reply.answer)
    except Refused as refused:
        raise CheckFailed(f"the check took a sheet that is to be refused with {refused}") from None
    except BadAnswer as reason:
        raise CheckFailed(f"the check wrote no answer sheet: {reason}") from None
    if not fits(sheet, answer, reply.second):
        raise CheckFailed("the check wrote an answer that does not fit the sheet or itself")
    return sheet, answer


def written(reply, what, read):
    """What a call wrote for a stack that is to be taken, by a function that reads its bytes or raises ValueError."""
    if reply.number:
        raise CheckFailed(f"the call for {what} refused a stack that is to be taken, with {reply.number} {reply.second}")
    try:
        return read(reply.answer)
    except ValueError as reason:
        raise CheckFailed(f"the call for {what} wrote {reason}") from None


def fits(sheet, answer, length):
    """Whether an answer has this sheet's counts and the findings and verdict of its own figures."""
    return (
        all(counts(answer.ends[end]) == counts_due(sheet, end) for end in range(2))
        and answer.findings == findings(sheet, answer.ends)
        and answer.verdict == (1 if answer.findings else 0)
        and answer.length == length
    )
