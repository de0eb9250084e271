"""Runs with packs in which calls of the system fail, or kill them (by `strace`): what is told, what is there then, and that a further run goes on."""
import fcntl
import os
import random
import re
import shutil
import subprocess
import tempfile
from concurrent.futures import ProcessPoolExecutor

from pack_runs import JOBS, Plain, all_packed, floor_of, full, goes_on, is_sound, looks_at, make, run, size_of, tell, told_by, youngest_of
from svn_shows import Differs, same

FAULT = r"svnjobs: (DiskFault [A-Z]\w*|Stuck [A-Z]\w*|BenchFault|MountFault|ReadFault|WriteFault)"
# the places at which a fault leaves it open whether `current` names a revision
OPEN = ("RenameCurrent", "FirmCurrent")
# which calls fail once, and at which a run is killed
CALLS = [(name, "error=EIO") for name in ("rename", "fsync", "mkdir", "unlink", "rmdir", "flock")]
CALLS += [(name, "signal=KILL") for name in ("rename", "fsync")]
RENAMES = ["rename", "renameat", "renameat2"]
SIZE, REVISIONS = 2, 5


def traced(folder, options, command, feed=b""):
    """The status of a command, what it prints, and the calls that `strace` noted."""
    trace = os.path.join(folder, "calls")
    done = run(["strace", "-f", "-q", "-o", trace, *options, *command], feed)
    with open(trace, encoding="utf-8", errors="replace") as file:
        return done, file.read()


# ---- each call in turn


def judge_lines(repos, printed, faults, begun, before):
    """What was told of a run in which something failed is what is there."""
    told = told_by(printed)
    same("the shards that are told as packed", told.packed * size_of(repos), floor_of(repos) - before)
    if not any(place in printed for place in OPEN):
        same("the youngest revision", told.youngest, youngest_of(repos))
    failed = bool(faults) or any(answer.startswith("fault") for answer in told.answers.values())
    if not failed:
        same("the youngest revision where nothing failed", told.youngest, begun + len(told.answers))
        all_packed(repos, False)
    return failed


def judge_faulty(repos, ended, begun, before):
    """A run in which a call failed: its lines, its faults and its status fit one another and the files."""
    status, printed, errors = ended
    faults = errors.splitlines()
    same("the lines on the error output", [line for line in faults if not re.fullmatch(FAULT, line)], [])
    for revision in re.findall(r"^\d+ r(\d+)$", printed, re.M):
        same("whether a revision that is told is there", begun < int(revision) <= youngest_of(repos), True)
    failed = True
    if printed and "svnjobs: WriteFault" not in faults:
        failed = judge_lines(repos, printed, faults, begun, before)
    elif not printed and "svnjobs: WriteFault" not in faults:
        same("how many faults are told where nothing is printed", len(faults), 1)
        same("what is there where nothing is printed", (youngest_of(repos), floor_of(repos)), (begun, before))
    same("the status", status, 4 if failed else 0)


def try_call(task):
    """A script with packs, whose calls of a kind have a fault, each in turn, by one worker and by two. What is wrong, or nothing, and how many runs
    there were."""
    (call, fault), folder = task, tempfile.mkdtemp(dir="/dev/shm" if os.path.isdir("/dev/shm") else None)
    first, repos = os.path.join(folder, "first"), os.path.join(folder, "R")
    number = 0
    try:
        make(first, SIZE, REVISIONS)
        for number in range(1, 500):
            shutil.rmtree(repos, ignore_errors=True)
            shutil.copytree(first, repos)
            command = [JOBS, repos, "-j", str(number % 2 + 1), "--pack"]
            inject = ["-e", f"trace={call}", "-e", f"inject={call}:{fault}:when={number}"]
            ended, calls = traced(folder, inject, command, Plain("failing", 3).text())
            if "INJECTED" not in calls and "killed by" not in calls:
                return None, number - 1
            if fault.startswith("error"):
                judge_faulty(repos, ended, REVISIONS, 0)
            same("whether the floor is one of a full shard", floor_of(repos) <= full(repos) and floor_of(repos) % SIZE == 0, True)
            if number % 3 == 0:
                looks_at(repos, random.Random(number))
            is_sound(repos)
            goes_on(repos, random.Random(number), 2 - number % 2)
        return f"{call}, {fault}: it makes too many calls", number
    except Differs as why:
        return f"{call} {number}, {fault}: {why}", number
    finally:
        shutil.rmtree(folder)


def try_calls():
    with ProcessPoolExecutor(len(os.sched_getaffinity(0))) as pool:
        ended = list(pool.map(try_call, CALLS))
    return tell("runs with each call failing once, or killed there", [why for why, _ in ended if why], f"; {sum(count for _, count in ended)} runs")


# ---- calls at a place


def calls_of(repos, folder, names):
    """The calls of these kinds that a run with no jobs makes, in their order: the process, the name and the words of each."""
    _, calls = traced(folder, ["-e", f"trace={','.join(names)}"], [JOBS, repos, "--pack"])
    return re.findall(r"^(?:(\d+) +)?(\w+)\((.*)$", calls, re.M)


def place_of(calls, at):
    """The call and how manieth of its kind by its process it is, as `strace` counts."""
    process, name, _ = calls[at]
    return name, sum(1 for it in calls[: at + 1] if it[:2] == (process, name))


def at_floors(calls):
    """Where the floor is renamed."""
    return [at for at, (_, name, words) in enumerate(calls) if name.startswith("rename") and re.search(r'min-unpacked-rev"', words)]


def places_of(first, folder):
    """Calls of a run with no jobs, each with the fault that is told where it fails, and with how many shards are packed then."""
    copy = os.path.join(folder, "traced")
    shutil.copytree(first, copy)
    calls = calls_of(copy, folder, [*RENAMES, "fsync", "fdatasync"])
    floors = at_floors(calls)
    same("how often the floor is renamed", len(floors), (REVISIONS + 1) // SIZE)
    for number, at in enumerate(floors):
        yield place_of(calls, at), "RenameFloor", number
        firm = next(behind for behind in range(at, len(calls)) if "sync" in calls[behind][1] and calls[behind][0] == calls[at][0])
        yield place_of(calls, firm), "FirmFloor", number + 1
    shutil.rmtree(copy)
    shutil.copytree(first, copy)
    calls = calls_of(copy, folder, ["openat", "open"])
    last = [at for at, it in enumerate(calls) if re.search(r'db/format"', it[2])][-1]
    yield place_of(calls, last), "OpenRead", 0


def fails_at_places(first, folder):
    """Of a run with no jobs all packing is behind them: it is told up to which shard it came, and why it stopped."""
    repos = os.path.join(folder, "R")
    for (call, number), place, packed in places_of(first, folder):
        shutil.rmtree(repos, ignore_errors=True)
        shutil.copytree(first, repos)
        ended, _ = traced(folder, ["-e", f"trace={call}", "-e", f"inject={call}:error=EIO:when={number}"], [JOBS, repos, "--pack"])
        wanted = 4, f"packed {packed}\nyoungest {REVISIONS}\n", f"svnjobs: DiskFault {place}\n"
        same(f"a run whose packing fails at {place}, {packed} shards packed", ended, wanted)
        same("the floor then", floor_of(repos), packed * SIZE)
        is_sound(repos)
        goes_on(repos, random.Random(number), 2)


def fails_beside(first, folder):
    """Where the floor can't be renamed, beside jobs too, that is told whatever was done, and the jobs that were committed are there."""
    copy = os.path.join(folder, "named")
    shutil.copytree(first, copy)
    calls = calls_of(copy, folder, RENAMES)
    next_floor = re.search('"(.*?)"', calls[at_floors(calls)[0]][2])[1]
    for workers in (1, 2):
        repos = os.path.join(folder, f"beside{workers}")
        shutil.copytree(first, repos)
        # of each thread the first renaming of a floor (of the two words of such a call `-P` takes the first)
        inject = ["-P", next_floor, "-e", f"trace={','.join(RENAMES)}", "-e", f"inject={','.join(RENAMES)}:error=EIO:when=1"]
        ended, calls = traced(folder, inject, [JOBS, repos, "-j", str(workers), "--pack"], Plain("failing", 12).text())
        same("whether a call failed", "INJECTED" in calls, True)
        same("what is told of it", (ended[0], ended[2]), (4, "svnjobs: DiskFault RenameFloor\n"))
        judge_faulty(repos, ended, REVISIONS, 0)
        is_sound(repos)
        goes_on(repos, random.Random(workers), workers)


def is_refused(first, folder):
    """A shard with a file gone, an output that is full, and a lock that another holds."""
    gone, full_output, held = (os.path.join(folder, name) for name in ("gone", "full", "held"))
    for repos in (gone, full_output, held):
        shutil.copytree(first, repos)
    os.unlink(os.path.join(gone, "db", "revs", "0", "1"))
    wanted = 3, f"packed 0\nyoungest {REVISIONS}\n", "svnjobs: Corrupt 1 0 Missing\n"
    same("a run over a shard with a file gone", run([JOBS, gone, "--pack"]), wanted)
    with open("/dev/full", "wb") as out:
        done = subprocess.run([JOBS, full_output, "--pack"], stdin=subprocess.DEVNULL, stdout=out, stderr=subprocess.PIPE, check=False)
    same("a run with a full output", (done.returncode, done.stderr), (4, b"svnjobs: WriteFault\n"))
    all_packed(full_output, True)
    with open(os.path.join(held, "db", "write-lock"), "r+b") as lock:
        fcntl.flock(lock, fcntl.LOCK_EX)
        same("a run beside another writer", run([JOBS, held, "--pack"], Plain("held", 1).text()), (4, "", "svnjobs: MountFault\n"))
    same("what is there then", (floor_of(held), youngest_of(held)), (0, REVISIONS))


def try_places():
    """What is wrong with runs whose calls fail at places that are known."""
    folder, wrong = tempfile.mkdtemp(), []
    try:
        first = os.path.join(folder, "first")
        make(first, SIZE, REVISIONS)
        for part in (fails_at_places, fails_beside, is_refused):
            try:
                part(first, folder)
            except Differs as why:
                wrong.append(str(why))
        return wrong
    finally:
        shutil.rmtree(folder)
