"""Random job scripts, which `jobs` and `workers` run: edits, copies of copies, renames, properties, stale bases, conflicts, edits that are
refused and texts that are read."""
import hashlib
import random
import re
import subprocess
import threading

from flat_history import History, Job, Refused, Transaction, text_of
from svn_shows import ENVIRONMENT

NAMES = ["a", "B", "ab", "a-b", "a.b", "a b", "ä", "日本", "Z", "0", "~", "#"]
PROPERTIES = ["color", "size", "a:b", "_x", "x-y.z"]


class Author:
    """Writes a script, and knows what it does to a history as far as it has come."""

    names = NAMES

    def __init__(self, seed):
        self.random = random.Random(seed)
        self.history, self.text, self.jobs, self.answers = History(), b"", [], []
        self.reads, self.notes = 0.1, []

    def line(self):
        return self.text.count(b"\n") + 1

    def write(self, text):
        self.text += text if isinstance(text, bytes) else text.encode()

    def write_bytes(self, head, value, tail=b""):
        self.write(f"{head} {len(value)}".encode() + tail + b"\n" + value + b"\n")

    def some_text(self):
        return "".join(self.random.choice("ab\n c") for _ in range(self.random.randrange(12))).encode()

    def free_path(self, tree):
        """A path at which mostly nothing stands, mostly below a directory."""
        parents = sorted(p for p, node in tree.items() if (node.kind == "dir" or self.random.random() < 0.02) and len(p) < 5)
        return (*self.random.choice(parents), self.random.choice(self.names).encode())

    def used_path(self, tree):
        """A path at which mostly something stands."""
        if self.random.random() < 0.03:
            return self.free_path(tree)
        return self.random.choice(sorted(tree))

    def file_path(self, tree):
        files = sorted(p for p, node in tree.items() if node.kind == "file")
        return self.random.choice(files) if files and self.random.random() < 0.7 else self.free_path(tree)

    def known(self):
        """A late revision that is surely there when the job begins: the youngest."""
        return self.history.youngest()

    def copy_edit(self, tree):
        youngest = self.known()
        revision = youngest + 1 if self.random.random() < 0.02 else self.random.choice([youngest, self.random.randint(0, youngest)])
        source = self.used_path(self.history.revisions[min(revision, youngest)].tree)
        return ("copy", revision, source, self.free_path(tree))

    def edits(self, tree):
        """One edit, or the two of a rename."""
        pick = self.random.random()
        if pick < 0.12:
            return [("mkdir", self.free_path(tree))]
        if pick < 0.17:
            return [("mkfile", self.free_path(tree))]
        if pick < 0.47:
            return [("put", self.file_path(tree), self.some_text())]
        if pick < 0.62:
            return [("prop", self.used_path(tree), self.random.choice(PROPERTIES), self.some_text())]
        if pick < 0.67:
            return [("prop", self.used_path(tree), self.random.choice(PROPERTIES), None)]
        if pick < 0.84:
            return [self.copy_edit(tree)]
        if pick < 0.92:
            return [("rm", self.used_path(tree) or self.used_path(tree))]
        if pick < 0.925:
            return [("prop", self.used_path(tree), "svn:mergeinfo", b"/a:1")]
        return self.rename(tree)

    def rename(self, tree):
        youngest = self.known()
        known = sorted(p for p in tree if p and p in self.history.revisions[youngest].tree)
        if not known:
            return [("mkdir", self.free_path(tree))]
        source = self.random.choice(known)
        return [("copy", youngest, source, self.free_path(tree)), ("rm", source)]

    def write_edit(self, edit):
        word, arguments = edit[0], edit[1:]
        if word == "put":
            self.write_bytes("put", arguments[1], b" " + text_of(arguments[0]))
        elif word == "prop" and arguments[2] is None:
            self.write(f"unprop {arguments[1]} ".encode() + text_of(arguments[0]) + b"\n")
        elif word == "prop":
            self.write_bytes("prop", arguments[2], f" {arguments[1]} ".encode() + text_of(arguments[0]))
        elif word == "copy":
            self.write(f"copy {arguments[0]} ".encode() + text_of(arguments[1]) + b"\nto " + text_of(arguments[2]) + b"\n")
        else:
            self.write(word.encode() + b" " + text_of(arguments[0]) + b"\n")

    def base(self):
        """`head`, a stale base, or one that isn't there."""
        pick, youngest = self.random.random(), self.history.youngest()
        if pick < 0.35:
            return None
        return max(0, youngest - self.random.randrange(5)) if pick < 0.98 else youngest + 1

    def log(self):
        return self.random.choice([None, "", "a log", "two\nlines"])

    def opening(self, word, base):
        return f"{word} {'head' if base is None else base}".encode()

    def commit_job(self):
        line, base = self.line(), self.base()
        self.write(self.opening("job", base) + b"\n")
        author = self.random.choice([None, "sally", "van der Berg"])
        log = self.log()
        if author is not None:
            self.write(f"author {author}\n")
        if log is not None:
            self.write_bytes("log", log.encode())
        edits = self.draft(base)
        self.write("commit\n")
        return Job(line, base, author, log, edits)

    def ground(self, base):
        """The revision over whose tree the edits of a job are written."""
        youngest = self.history.youngest()
        return youngest if base is None else min(base, youngest)

    def draft(self, base):
        """Edits that are written, each over what those before make; the first that is refused is mostly the last."""
        transaction = Transaction(self.history.revisions, self.ground(base))
        edits = []
        for _ in range(self.random.choice([0, 1, 1, 2, 3, 5, 8])):
            for edit in self.edits(transaction.tree):
                edits.append((self.line(), edit))
                self.write_edit(edit)
                try:
                    transaction.do(edit)
                except Refused:
                    return edits
        return edits

    def read_job(self):
        line, base = self.line(), self.base()
        revision = min(self.history.youngest() if base is None else base, self.history.youngest())
        path = self.file_path(self.history.revisions[revision].tree)
        self.write(self.opening("read", base) + b" " + text_of(path) + b"\n")
        return Job(line, base, None, None, [], path)

    def add_job(self):
        self.write("\n" * self.random.choice([0, 0, 1]))
        job = self.read_job() if self.random.random() < self.reads else self.commit_job()
        self.jobs.append(job)
        self.answers.append(answer_of(self.history, job))


def answer_of(history, job):
    """What is told of a job, behind its number."""
    if job.read is None:
        return history.run(job)
    read = history.read(job)
    if isinstance(read, str):
        return read
    return f"read r{read[0]} {len(read[1])} {hashlib.md5(read[1]).hexdigest()}"


def script_of(seed):
    author = Author(seed)
    for _ in range(author.random.randint(5, 25)):
        author.add_job()
    return author


# ---- their runs


def status_of(answers):
    """The status of a run whose jobs answered this."""
    return max(1 if re.match("refused|conflict", answer) else 0 for answer in answers)


def lines_within(command, text, seconds):
    """The whole lines that a run of a script has printed when it ends, or is killed after so many seconds, and its status."""
    with subprocess.Popen(command, stdin=subprocess.PIPE, stdout=subprocess.PIPE, stderr=subprocess.DEVNULL, env=ENVIRONMENT) as run:
        timer = threading.Timer(seconds if seconds is not None else threading.TIMEOUT_MAX, run.kill)
        timer.start()
        printed, _ = run.communicate(text)
        timer.cancel()
    return printed[: printed.rfind(b"\n") + 1].decode().split("\n")[:-1], run.returncode
