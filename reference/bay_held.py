"""Holds what a call for a bay returned and wrote to what must come out, and its rows to the check of each with the wind bits put in."""

from reference.bay import with_winds
from reference.judge import Judgement, judge
from sheets.answer import read_answer
from sheets.bay import BadReport, read_report, rows_of


def judge_bay(due, reply):
    """Every fault of a reply, and how far its forces lie above the exact ones; the verdict is the number of accepted rows."""
    judgement = Judgement()
    found = (reply.number, reply.second, reply.row)
    if due.refusal:
        if found != due.refusal:
            judgement.faults.append(f"returns {found}, {due.refusal} is due")
        if any(reply.buffer):
            judgement.faults.append("refused, and the buffer was written")
        return judgement
    if (reply.number, reply.row) != (0, 0):
        judgement.faults.append(f"returns {found} for a bay that is taken")
        return judgement
    if any(reply.buffer[reply.second :]):
        judgement.faults.append("bytes behind the report were written")
    try:
        report = read_report(reply.answer, len(due.rows))
    except BadReport as reason:
        judgement.faults.append(f"report: {reason}")
        return judgement
    judgement.verdict = report.accepted
    judge_rows(due, report, judgement)
    if not judgement.faults:
        judgement.faults += total_faults(due, report)
    return judgement


def judge_rows(due, report, judgement):
    """Each row's answer as that of a check; an empty row has none."""
    for number, (row, answer) in enumerate(zip(due.rows, report.answers), 1):
        if row is None:
            if answer:
                judgement.faults.append(f"row {number}: {len(answer)} bytes for an empty row")
            continue
        found = judge(row, answer)
        judgement.faults += (f"row {number}: {fault}" for fault in found.faults)
        for kind, distance in found.distances.items():
            judgement.distances[kind] = max(distance, judgement.distances.get(kind, distance))


def total_faults(due, report):
    """The totals are those of the rows as reported: accepted ones, the mass of all, the greatest racking in size of all."""
    answers = [read_answer(answer) for answer in report.answers if answer]
    rackings = [abs(force) for answer in answers for end in answer.ends for force in end.racking]
    accepted = sum(answer.verdict == 0 for answer in answers)
    for name, found, right in (
        ("accepted rows", report.accepted, accepted), ("mass", report.mass, due.mass),
        ("greatest racking", report.racking, max(rackings, default=0)),
    ):
        if found != right:
            yield f"{name}: {found}, {right} is due"


def by_the_check(due, reply, data, check):
    """What is wrong with the rows of a taken bay beside the check of each row's own bytes with the wind bits put in."""
    report = read_report(reply.answer, len(due.rows))
    for number, (row, bytes_, answer) in enumerate(zip(due.rows, rows_of(data), report.answers), 1):
        if row and check(with_winds(bytes_, row.sheet)).answer != answer:
            yield f"row {number}: not the answer of the check of its bytes with the wind bits put in"
