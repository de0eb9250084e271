"""Scripts of many jobs that are done beside one another, which `workers` and `jobs_and_packs` run, and what is told of them."""
import re

from job_orders import judge, name_of, up_to
from job_scripts import NAMES, Author
from svn_shows import output


class Crowd(Author):
    """Writes scripts whose jobs are done beside one another. What becomes of a job hangs on the others, so mostly its edits are of what stood
    when the script began, and little of that is taken away."""

    names = NAMES + [f"n{number}" for number in range(100)]

    def __init__(self, seed):
        super().__init__(seed)
        self.begun, self.scripts, self.workers = 0, 0, 1

    def begin_script(self, workers):
        self.begun, self.scripts, self.workers = self.history.youngest(), self.scripts + 1, workers
        self.text, self.jobs, self.answers = b"", [], []

    def known(self):
        return self.begun if self.workers > 1 else super().known()

    def base(self):
        """`head`, a revision that is surely there, one that may be, or one above all."""
        pick, youngest = self.random.random(), self.history.youngest()
        if pick < 0.6:
            return None
        if pick < 0.75:
            return self.random.randint(0, self.begun)
        return self.random.randint(self.begun, (self.begun + youngest) // 2) if pick < 0.98 else youngest + 1

    def ground(self, base):
        ground = super().ground(base)
        return min(ground, self.begun) if self.workers > 1 and self.random.random() < 0.9 else ground

    def edits(self, tree):
        while True:
            edits = super().edits(tree)
            if edits[-1][0] != "rm" or self.random.random() < 0.1:
                return edits

    def log(self):
        return name_of(self.scripts, len(self.jobs) + 1) + self.random.choice(["", "\na second line"])


# ---- what is told of a run


def transactions_of(repos):
    """The names of the transactions that are listed: one that was killed leaves its own."""
    return sorted(output("/usr/bin/svnadmin", "lstxns", repos).split())


def answers_of(lines):
    """The answers of lines, by the numbers of their jobs."""
    return {int(found[1]): found[2] for line in lines if (found := re.fullmatch(r"(\d+) (.*)", line))}


def add_run(runner, repos, script, jobs, workers, seconds=None):
    """So many jobs are written, and done by the workers. Whether the run came to its end."""
    script.begin_script(workers)
    history = script.history
    script.history = up_to(history, history.youngest())
    for _ in range(jobs):
        script.add_job()
    script.history = history
    run, whole = runner.run(repos, script, seconds)
    judge("file://" + repos, history, run, runner.rules)
    if not whole:
        script.notes.append("cut off before their end")
        output("/usr/bin/svnadmin", "verify", "-q", repos)
    script.notes += [note_of(answer) for answer in run.answers.values()]
    script.notes += ["committed before a job in front of them"] * overtakings(run)
    return whole


def note_of(answer):
    word = re.match("[a-z]+", answer)[0]
    return {"r": "jobs committed", "read": "texts read", "conflict": "conflicts"}.get(word, word)


def overtakings(run):
    """How many jobs were committed before one that stands in front of them in the script."""
    revisions = [int(answer[1:]) for _, answer in sorted(run.answers.items()) if re.fullmatch(r"r\d+", answer)]
    return sum(1 for at, revision in enumerate(revisions) if any(revision < before for before in revisions[:at]))
