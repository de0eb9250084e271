"""What the tries of `jobs_and_packs` share: how far a repository is packed, scripts each job of which is committed, and what is told of a run with
packs. It shares no code with the store: floors are read from the files, and revisions by Subversion's own tools."""
import hashlib
import os
import re
import shutil
import subprocess
from typing import NamedTuple

from crowds import answers_of
from svn_shows import ENVIRONMENT, Differs, logged_changes, output, path_of, same

TOP = os.path.join(os.path.dirname(os.path.abspath(__file__)), "..", "..")
ADMIN, JOBS, LOOK = (os.path.join(TOP, "bin", name) for name in ("svnadmin", "svnjobs", "svnlook"))
THEIR_ADMIN, THEIR_LOOK = "/usr/bin/svnadmin", "/usr/bin/svnlook"


# ---- how far a repository is packed


def number_in(repos, name):
    """The number in a small file."""
    with open(os.path.join(repos, "db", name), encoding="ascii") as file:
        return int(file.read())


def floor_of(repos):
    return number_in(repos, "min-unpacked-rev")


def size_of(repos):
    """How many revisions a shard has."""
    with open(os.path.join(repos, "db", "format"), encoding="ascii") as file:
        return int(re.search(r"^layout sharded (\d+)$", file.read(), re.M)[1])


def youngest_of(repos):
    return int(output(THEIR_LOOK, "youngest", repos))


def full(repos):
    """The floor above the last shard that is full."""
    size = size_of(repos)
    return (youngest_of(repos) + 1) // size * size


def folders(repos):
    """What is in the folder of revisions: a folder or a pack for each shard."""
    return sorted(os.listdir(os.path.join(repos, "db", "revs")))


def all_packed(repos, is_whole):
    """Each full shard is packed, by Subversion's own `pack` too; and where no run was killed nothing is left of it beside the pack."""
    size, floor = size_of(repos), floor_of(repos)
    same("the floor behind the run", floor, full(repos))
    wanted = {f"{shard}.pack" for shard in range(floor // size)} | ({str(floor // size)} if youngest_of(repos) >= floor else set())
    there = set(folders(repos))
    same("the packs and folders of revisions that are not there", sorted(wanted - there), [])
    if is_whole:
        same("what is left beside them", sorted(there - wanted), [])
    output(THEIR_ADMIN, "pack", "-q", repos)
    same("the floor behind a pack of Subversion's own", floor_of(repos), floor)


def is_sound(repos):
    """Both sides find nothing wrong."""
    output(THEIR_ADMIN, "verify", "-q", repos)
    printed = output(ADMIN, "verify", repos).decode().splitlines()
    same("how many revisions our verify finds sound", len(printed), youngest_of(repos) + 1)
    for number, line in enumerate(printed):
        same("a line of our verify", line, f"* Verified revision {number}.")


def pack_files(repos):
    """The bytes of the packs and their manifests, by their names."""
    found = {}
    for shard in folders(repos):
        if shard.endswith(".pack"):
            for name in ("manifest", "pack"):
                with open(os.path.join(repos, "db", "revs", shard, name), "rb") as file:
                    found[f"{shard}/{name}"] = file.read()
    return found


def unpack(repos):
    """Each revision has its own file again, cut from the pack by its manifest, and none is packed."""
    revs, size = os.path.join(repos, "db", "revs"), size_of(repos)
    for name, text in pack_files(repos).items():
        shard = int(name.partition(".")[0])
        if name.endswith("manifest"):
            begins = [int(line) for line in text.split()]
            shutil.rmtree(os.path.join(revs, str(shard)), ignore_errors=True)
            os.mkdir(os.path.join(revs, str(shard)))
        else:
            same(f"how many revisions are in pack {shard}", len(begins), size)
            for at, (begin, end) in enumerate(zip(begins, [*begins[1:], len(text)])):
                with open(os.path.join(revs, str(shard), str(shard * size + at)), "wb") as file:
                    file.write(text[begin:end])
            shutil.rmtree(os.path.join(revs, f"{shard}.pack"))
    with open(os.path.join(repos, "db", "min-unpacked-rev"), "w", encoding="ascii") as file:
        file.write("0\n")


def packs_as_theirs(repos, folder):
    """The packs have the bytes that Subversion's own `pack` makes of the same revisions."""
    copy = os.path.join(folder, "unpacked")
    shutil.copytree(repos, copy)
    unpack(copy)
    output(THEIR_ADMIN, "pack", "-q", copy)
    same("whether the packs are those of Subversion's own", pack_files(repos) == pack_files(copy), True)
    shutil.rmtree(copy)


# ---- what is told of a run


class Told(NamedTuple):
    """The lines of a run that came to its end: what is told of each job by its number, the shards that were packed, and whether a check found
    nothing wrong."""

    answers: dict
    packed: int
    sound: bool
    youngest: int


def told_by(printed):
    """What these lines tell; they have to stand in their order, with nothing else."""
    found = re.fullmatch(r"((?:\d+ .*\n)*)packed (\d+)\n(?:sound r(\d+)\n)?youngest (\d+)\n", printed)
    if found is None:
        raise Differs(f"lines that are none of a run with packs: {printed!r}")
    jobs = answers_of(found[1].splitlines())
    same("the numbers of the jobs", list(jobs), list(range(1, found[1].count("\n") + 1)))
    if found[3] is not None:
        same("the revision up to which all is sound", found[3], found[4])
    return Told(jobs, int(found[2]), found[3] is not None, int(found[4]))


def words_of(picks, repos, workers, checks):
    """The words of a run with packs, its options in any order, before the path or behind it."""
    options = [["--pack"], *([["--check"]] if checks else []), *([["-j", str(workers)]] if workers > 1 or picks.random() < 0.5 else [])]
    words = [[repos], *options]
    picks.shuffle(words)
    return [word for part in words for word in part]


def run(command, feed=b""):
    """The status of a command, and what it prints on both outputs."""
    done = subprocess.run(command, input=feed, capture_output=True, env=ENVIRONMENT, check=False)
    return done.returncode, done.stdout.decode(), done.stderr.decode()


def packs_nothing_more(repos):
    """A run behind one that packed packs nothing, with jobs that add nothing or with none."""
    youngest = youngest_of(repos)
    for script, lines, status in ((b"", "", 0), (b"read 0 /nothing\n", "1 refused 1 NotFound /nothing\n", 1)):
        wanted = status, f"{lines}packed 0\nyoungest {youngest}\n", ""
        same("a run with packs behind another", run([JOBS, repos, "--pack"], script), wanted)


# ---- scripts each job of which is committed


class Plain(NamedTuple):
    """A script by its name, and how many jobs it has. Each puts a file in a folder that the jobs of the other worker leave alone, and its log names
    it; each fifth reads a file."""

    name: str
    jobs: int

    def reads(self, number):
        return number % 5 == 0

    def log(self, number):
        return f"{self.name}, job {number}"

    def path(self, number):
        return f"/w{number % 2}/f{number % 7}"

    def put(self, number):
        return f"{self.log(number)}\n" * (number % 3 + 1)

    def text(self):
        return b"".join(self.job(number) for number in range(1, self.jobs + 1))

    def job(self, number):
        if self.reads(number):
            return b"read head /first\n"
        log, text = self.log(number), self.put(number)
        return f"job head\nlog {len(log)}\n{log}\nput {len(text)} {self.path(number)}\n{text}\ncommit\n".encode()


FIRST = "job 0\nmkdir /w0\nmkdir /w1\nput 6 /first\nfirst\n\ncommit\n".encode()
READ = "6 " + hashlib.md5(b"first\n").hexdigest()


def make(repos, size, revisions):
    """A new repository with so many revisions, on which a plain script can go on; nothing is packed."""
    output(ADMIN, "create", repos, "--shard", str(size))
    output(JOBS, repos, feed=FIRST + b"".join(Plain("begun", revisions).job(1) for _ in range(revisions - 1)))
    same("the youngest revision to begin with", youngest_of(repos), revisions)


def revisions_told(answers, plain):
    """The revisions that are told: committed by the numbers of their jobs, and read."""
    added, read = {}, {}
    for number, answer in answers.items():
        found = re.fullmatch(rf"read r(\d+) {READ}" if plain.reads(number) else r"r(\d+)", answer)
        if found is None:
            raise Differs(f"job {number} of '{plain.name}' tells '{answer}'")
        (read if plain.reads(number) else added)[number] = int(found[1])
    return added, read


def follow(plain, shown, begun, youngest, workers):
    """Each worker's jobs meet no older revision than the one before them did, and one worker's no other than the youngest."""
    for worker in range(1, workers + 1):
        least = begun
        for number in range(worker, plain.jobs + 1, workers):
            most = youngest if workers > 1 else least + (0 if plain.reads(number) else 1)
            same(f"whether job {number} may tell r{shown[number]}", least <= shown[number] <= most, True)
            least = shown[number]


def judge_plain(repos, plain, answers, begun, workers):
    """The lines of a whole run are true of the one history that Subversion's own log shows: each revision since the first is of one job, and a
    reading is of a revision that its worker may have met."""
    added, read = revisions_told(answers, plain)
    youngest = begun + len(added)
    same("the jobs that are told", list(answers), list(range(1, plain.jobs + 1)))
    same("the revisions that are told", sorted(added.values()), list(range(begun + 1, youngest + 1)))
    same("the youngest revision", youngest_of(repos), youngest)
    follow(plain, {**added, **read}, begun, youngest, workers)
    logged = logged_changes("file://" + repos)
    for number, revision in added.items():
        changes, props = logged[revision]
        same(f"the log of r{revision}", props["svn:log"], plain.log(number))
        same(f"the paths of r{revision}", list(changes), [path_of(plain.path(number))])
    for path, number in {plain.path(number): number for number in sorted(added, key=added.get)}.items():
        same(f"the text of {path}", output(THEIR_LOOK, "cat", repos, path).decode(), plain.put(number))


# ---- what is behind a run that was cut off or failed


def looks_at(repos, picks):
    """Looks of both sides at some revisions show the same, and none is refused."""
    youngest = youngest_of(repos)
    same("the youngest revision by our svnlook", output(LOOK, "youngest", repos), f"{youngest}\n".encode())
    for revision in {0, youngest, picks.randint(0, youngest), picks.randint(0, youngest)}:
        words = ["tree", "--show-ids", "-r", str(revision), repos]
        same(f"the tree of r{revision}", output(LOOK, *words), output(THEIR_LOOK, *words))


def goes_on(repos, picks, workers):
    """Behind a run that was cut off or failed a further one commits, and packs what is full."""
    begun, before, plain = youngest_of(repos), floor_of(repos), Plain("behind it", 7)
    status, printed, errors = run([JOBS, *words_of(picks, repos, workers, picks.random() < 0.5)], plain.text())
    same("the next run's status and error output", (status, errors), (0, ""))
    told = told_by(printed)
    judge_plain(repos, plain, told.answers, begun, workers)
    same("the shards that the next run tells as packed", told.packed * size_of(repos), floor_of(repos) - before)
    all_packed(repos, False)
    is_sound(repos)


def tell(what, wrong, told=""):
    """Says how a try went, and how many failed."""
    for why in wrong:
        print(f"interop: jobs and packs, {what}: {why}")
    print(f"interop: jobs and packs, {what}: {'ok' if not wrong else 'failed'}{told}", flush=True)
    return len(wrong)
