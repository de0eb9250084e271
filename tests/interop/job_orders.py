"""In which order the jobs of a run became revisions, that were done beside one another, and whether what they told fits it. The order is read
from the logs, each of which names its job; a flat simulation (`flat_history.py`) does the jobs in that order."""
import re
from typing import NamedTuple

from flat_history import History, Refused, Sides, Transaction, text_of
from job_scripts import answer_of
from svn_shows import Differs, logged_changes, same


def name_of(script, number):
    return f"script {script}, job {number}"


class Run(NamedTuple):
    """What a run was, and what it told: the number of its script, the workers, and a line for each job, or a first part of these where it was
    killed."""

    script: int
    workers: int
    jobs: list
    answers: dict


class Rules:
    """How a job is judged that does what the simulation does."""

    def lands(self, history, sides):
        """It lands, or may land."""
        return sides.first_clash() is None

    def note(self, revision):
        """What is noted beside the simulation's of a new revision."""

    def explains(self, history, job, answer, first):
        """The job may answer this, where it began at a revision from the first on."""
        conflict = re.fullmatch(r"conflict r(\d+) (/.*)", answer)
        if conflict:
            return clashes_at(history, job, first, int(conflict[1]), conflict[2])
        return any(answer_at(history, job, start) == answer for start in range(first, history.youngest() + 1))


def done(job, seen):
    """The transaction of a job that began with so much of the history, or why it was refused."""
    line = job.line
    try:
        transaction = Transaction(seen.revisions, seen.base_of(job))
        for line, edit in job.edits:
            transaction.do(edit)
    except Refused as why:
        return None, f"refused {line} {why}"
    return transaction, None


def sides_of(history, job, start, head):
    """What a job that began at one revision meets on another; none where an edit is refused."""
    transaction, _ = done(job, up_to(history, start))
    return Sides(history.revisions[: head + 1], transaction) if transaction is not None else None


def up_to(history, youngest):
    """The history as it was when this revision was its youngest."""
    then = History()
    then.revisions = history.revisions[: youngest + 1]
    return then


def clashes_at(history, job, first, head, path):
    """A job that began at some revision from the first on clashes with the head, at the path."""
    if head > history.youngest():
        return False
    for start in range(head, first - 1, -1):
        sides = sides_of(history, job, start, head)
        clash = sides.first_clash() if sides is not None else None
        if clash is not None and text_of(clash).decode() == path:
            return True
    return False


def answer_at(history, job, start):
    """What a job tells that is refused, or that reads; none of one that is committed or clashes."""
    seen = up_to(history, start)
    return answer_of(seen, job) if job.read is not None else done(job, seen)[1]


def order_of(url, run, begun):
    """The jobs of a run in the order of their revisions."""
    order = []
    logged = logged_changes(url)
    for number in range(begun + 1, max([*logged, begun]) + 1):
        name = logged[number][1]["svn:log"].split("\n")[0]
        found = [job for job in range(1, len(run.jobs) + 1) if name_of(run.script, job) == name]
        same(f"whether r{number} is of one job, '{name}'", len(found), 1)
        same(f"whether r{number} alone is of job {found[0]}", found[0] in order, False)
        order.append(found[0])
    return order


def first_starts(run, order, begun):
    """Of each job the least revision at which it may have begun: what the jobs of its worker before it have shown."""
    shown = {number: begun for number in range(1, len(run.jobs) + 1)}
    for number, answer in run.answers.items():
        found = re.match(r"(?:read |conflict )?r(\d+)|refused \d+ NoRev \d+ (\d+)", answer)
        if found:
            shown[number] = int(found[1] or found[2])
    for revision, number in enumerate(order, begun + 1):
        shown[number] = revision
    firsts = {}
    for number in range(1, len(run.jobs) + 1):
        before = number - run.workers
        firsts[number] = max(firsts[before], shown[before]) if before > 0 else begun
    return firsts


def replay(history, run, order, firsts, rules):
    """The jobs in their order, in the simulation: each lands on the revision before its own."""
    for number in order:
        head = history.youngest()
        job = run.jobs[number - 1]
        for start in range(head, firsts[number] - 1, -1):
            sides = sides_of(history, job, start, head)
            if sides is not None and rules.lands(history, sides):
                break
        else:
            raise Differs(f"r{head + 1} is of job {number}, which doesn't land there: {job}, begun at r{firsts[number]} at the least")
        history.land(job, sides)
        rules.note(history.revisions[-1])


def judge(url, history, run, rules):
    """Takes a run into the history. What was told is what its jobs answer in the order that they had."""
    begun = history.youngest()
    order = order_of(url, run, begun)
    there = dict(enumerate(order, begun + 1))
    told = {int(answer[1:]): number for number, answer in run.answers.items() if re.fullmatch(r"r\d+", answer)}
    same("the revisions that were told, by their jobs", {revision: there.get(revision) for revision in told}, told)
    if len(run.answers) == len(run.jobs):
        same("the revisions, by their jobs", there, told)
    firsts = first_starts(run, order, begun)
    replay(history, run, order, firsts, rules)
    for number, answer in run.answers.items():
        if number not in told.values() and not rules.explains(history, run.jobs[number - 1], answer, firsts[number]):
            raise Differs(f"job {number} tells '{answer}': {run.jobs[number - 1]}, begun at r{firsts[number]} at the least")
