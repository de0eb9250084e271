"""Runs the jobs of a script by processes of Subversion's own library (`python3-subversion`) over one repository, beside one another, to try
what `workers` tries of `svnjobs`."""
import hashlib
import os
import re
import signal
import threading

from svn import core, fs, repos

from flat_history import Refused, text_of
from job_orders import Rules, Run, answer_at, sides_of, up_to
from jobs_of_theirs import CASES, commit, difference, note_texts, text
from svn_shows import path_of, same


# Two processes that make the cache of representations at once end by a fault of the library.
FSFS_CONF = "[rep-sharing]\nenable-rep-sharing = false\n"


class TheirRules(Rules):
    """A job of that library may do otherwise than the simulation, in the cases that are known."""

    def lands(self, history, sides):
        return self.is_known(history, sides, None)

    def is_known(self, history, sides, clash):
        found = difference(history, sides, clash)
        return found is None or found in CASES

    def note(self, revision):
        note_texts(revision.changes)

    def explains(self, history, job, answer, first):
        """It doesn't tell with which revision it clashes, nor why it refuses an edit."""
        starts = range(first, history.youngest() + 1)
        if answer.startswith("conflict "):
            return any(self.clashes(history, job, start, path_of(answer.split(" ", 1)[1])) for start in starts)
        told = [answer_at(history, job, start) for start in starts]
        return answer in told or answer == "refused" and any(it is not None and it.startswith("refused") for it in told)

    def clashes(self, history, job, start, path):
        for head in range(start, history.youngest() + 1):
            sides = sides_of(history, job, start, head)
            if sides is not None and self.is_known(up_to(history, head), sides, path):
                return True
        return False


def read(filesystem, job, base):
    root = fs.revision_root(filesystem, base)
    size = fs.file_length(root, text(job.read))
    value = core.svn_stream_read_full(fs.file_contents(root, text(job.read)), size) if size else b""
    return f"read r{base} {len(value)} {hashlib.md5(value).hexdigest()}"


def answer(filesystem, job):
    """What becomes of a job."""
    base = fs.youngest_rev(filesystem) if job.base is None else job.base
    try:
        if job.read is not None:
            return read(filesystem, job, base)
        revision, path = commit(filesystem, job, base)
        return f"r{revision}" if path is None else f"conflict {text_of(path).decode()}"
    except (core.SubversionException, Refused):
        return "refused"


def work(path, jobs, worker, workers, out):
    """The jobs of a worker, each told as soon as it is done."""
    filesystem = repos.fs(repos.open(path))
    for number in range(worker, len(jobs) + 1, workers):
        os.write(out, f"{number} {answer(filesystem, jobs[number - 1])}\n".encode())


def start(path, jobs, worker, workers, out):
    """A process of its own does the jobs of a worker."""
    child = os.fork()
    if child == 0:
        status = 1
        try:
            work(path, jobs, worker, workers, out)
            status = 0
        finally:
            os._exit(status)
    return child


class Theirs:
    """Runs by that library."""

    rules = TheirRules()

    def create(self, path, _):
        repos.create(path, None, None, None, {"compatible-version": "1.6"})
        with open(os.path.join(path, "db", "fsfs.conf"), "w", encoding="ascii") as file:
            file.write(FSFS_CONF)

    def run(self, path, script, seconds):
        """A whole run, or what is told of one that is killed, and whether it came to its end."""
        told = path + ".told"
        out = os.open(told, os.O_WRONLY | os.O_CREAT | os.O_TRUNC | os.O_APPEND)
        children = [start(path, script.jobs, worker, script.workers, out) for worker in range(1, script.workers + 1)]
        os.close(out)
        timer = threading.Timer(seconds if seconds is not None else threading.TIMEOUT_MAX, kill_all, [children])
        timer.start()
        statuses = [os.waitpid(child, 0)[1] for child in children]
        timer.cancel()
        with open(told, encoding="utf-8") as file:
            lines = file.read().splitlines()
        answers = {int(found[1]): found[2] for line in lines if (found := re.fullmatch(r"(\d+) (.*)", line))}
        whole = not any(statuses)
        same("whether the run came to its end", whole or seconds is not None, True)
        return Run(script.scripts, script.workers, script.jobs, answers), whole


def kill_all(children):
    for child in children:
        os.kill(child, signal.SIGKILL)
