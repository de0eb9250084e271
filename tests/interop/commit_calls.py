"""commit_calls.py REPOS CALLS COMMITS: whether the calls that a run made (as `strace -f -y` notes them) make so many commits firm: each file
is synced behind its last writing and before its last name, each new name before `db/current` is renamed, and that name behind it."""
import os
import re
import sys

CALL = re.compile(r"^(?:\d+ +)?(\w+)\((.*)\) += (\d+)")
UNFINISHED = re.compile(r"^(\d+) +(\w+\(.*) <unfinished \.\.\.>$")
RESUMED = re.compile(r"^(\d+) +<\.\.\. \w+ resumed>(.*)$")


def calls_of(lines):
    """The calls that went well, whole, each as its name and its words."""
    begun = {}
    for line in lines:
        unfinished, resumed = UNFINISHED.match(line), RESUMED.match(line)
        if unfinished:
            begun[unfinished[1]] = unfinished[2]
            continue
        if resumed:
            line = f"{resumed[1]} {begun.pop(resumed[1], '')}{resumed[2]}"
        call = CALL.match(line)
        if call:
            yield call[1], call[2]


class Run:
    """What was written, synced and named so far."""

    def __init__(self, repos):
        self.db = os.path.join(os.path.realpath(repos), "db")
        self.unsynced, self.known, self.names, self.locked = set(), set(), {}, set()
        self.current, self.revisions, self.properties, self.wrong = 0, 0, 0, []

    def note(self, name, words):
        if name in ("open", "openat", "creat") and "O_CREAT" in words:
            self.wrote(self.paths(words)[0])
        elif name in ("write", "pwrite64", "writev", "ftruncate"):
            self.wrote(self.opened(words))
        elif name in ("fsync", "fdatasync"):
            self.unsynced.discard(self.opened(words))
            self.names.pop(self.opened(words), None)
        elif name == "flock" and "LOCK_EX" in words:
            self.locked.add(self.opened(words))
        elif name in ("mkdir", "mkdirat"):
            self.named(self.paths(words)[0])
        elif name in ("rename", "renameat", "renameat2"):
            self.renamed(*self.paths(words)[:2])

    @staticmethod
    def paths(words):
        return [os.path.abspath(word) for word in re.findall(r'"((?:[^"\\]|\\.)*)"', words)]

    @staticmethod
    def opened(words):
        found = re.match(r"\d+<([^>]*)>", words)
        return found[1] if found else ""

    def wrote(self, path):
        if not path.startswith(self.db + "/"):
            return
        self.known.add(path)
        self.unsynced.add(path)
        if os.path.join(self.db, "write-lock") not in self.locked and not path.endswith("-lock"):
            self.wrong.append(f"{path} is written without the lock")

    def named(self, path):
        self.names.setdefault(os.path.dirname(path), set()).add(path)

    def renamed(self, old, new):
        kind = self.kind_of(new)
        if kind and (old not in self.known or old in self.unsynced):
            self.wrong.append(f"{old} gets the name {new} and was not synced")
        if kind == "current":
            self.current_named()
        elif kind:
            self.file_named(kind, new)
        if old in self.unsynced:
            self.unsynced.discard(old)
            self.unsynced.add(new)
        self.known.discard(old)
        self.known.add(new)
        self.named(new)

    def kind_of(self, path):
        within = os.path.relpath(path, self.db)
        if within == "current":
            return "current"
        file = re.fullmatch(r"(revs|revprops)/\d+/\d+", within)
        return file[1] if file else None

    def file_named(self, kind, path):
        if os.path.join(self.db, "current") in self.names.get(self.db, ()):
            self.wrong.append(f"{path} gets its name before that of the last db/current is synced")
        if kind == "revs":
            self.revisions += 1
        else:
            self.properties += 1

    def current_named(self):
        self.current += 1
        if (self.revisions, self.properties) != (self.current, self.current):
            self.wrong.append(f"db/current {self.current} behind {self.revisions} revisions and {self.properties} of their properties")
        for part in ("revs", "revprops"):
            for folder, names in self.names.items():
                if names and (folder + "/").startswith(f"{self.db}/{part}/"):
                    self.wrong.append(f"db/current is renamed before {folder} is synced, with {sorted(names)}")

    def end(self, commits):
        if self.current != commits:
            self.wrong.append(f"db/current is renamed {self.current} times")
        if os.path.join(self.db, "current") in self.names.get(self.db, ()):
            self.wrong.append("the last name of db/current is not synced")


def main(repos, calls, commits):
    run = Run(repos)
    with open(calls, encoding="utf-8", errors="replace") as file:
        for name, words in calls_of(file):
            run.note(name, words)
    run.end(int(commits))
    for line in run.wrong:
        print(f"interop: {line}")
    return 1 if run.wrong else 0


if __name__ == "__main__":
    sys.exit(main(*sys.argv[1:]))
