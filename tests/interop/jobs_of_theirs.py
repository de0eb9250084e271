"""Runs job scripts by Subversion's own library (`python3-subversion`), to try the simulation, and tells where that library's merges differ
from ours on purpose. What it does then is taken into the history: a job that it lands, or doesn't."""
import re

from svn import core, fs, repos

from flat_history import History, Refused, Sides, Transaction, covers

# What it does otherwise with a job.
PROPERTIES = "landed beside new entries of a directory whose properties the job sets"
EQUAL = "landed beside properties of a directory that were set to what they were"
COPIED = "not landed below a directory that was copied whole"
ANOTHER = "told another clash than the least"
CASES = PROPERTIES, EQUAL, COPIED, ANOTHER


def text(path):
    return (b"/" + b"/".join(path)).decode()


def do(root, filesystem, edit):
    """An edit, as the simulation has it: a copy takes no path at which something stands, and counts of mergeinfo stay."""
    word, arguments = edit[0], edit[1:]
    if word == "copy" and fs.check_path(root, text(arguments[2])) != core.svn_node_none:
        raise Refused(f"Exists {text(arguments[2])}")
    if word == "prop" and arguments[1] == "svn:mergeinfo":
        raise Refused(f"Mergeinfo {text(arguments[0])}")
    if word == "mkdir":
        fs.make_dir(root, text(arguments[0]))
    elif word == "mkfile":
        fs.make_file(root, text(arguments[0]))
    elif word == "rm":
        fs.delete(root, text(arguments[0]))
    elif word == "copy":
        fs.copy(fs.revision_root(filesystem, arguments[0]), text(arguments[1]), root, text(arguments[2]))
    elif word == "put":
        if fs.check_path(root, text(arguments[0])) == core.svn_node_none:
            fs.make_file(root, text(arguments[0]))
        stream = fs.apply_text(root, text(arguments[0]), None)
        core.svn_stream_write(stream, arguments[1])
        core.svn_stream_close(stream)
    else:
        fs.change_node_prop(root, text(arguments[0]), arguments[1], arguments[2])


def commit(filesystem, job, base):
    """Commits a job: its revision, or none and the path at which it conflicts."""
    txn = fs.begin_txn2(filesystem, base, 0)
    for name, value in (("svn:author", job.author), ("svn:log", job.log)):
        if value is not None:
            fs.change_txn_prop(txn, name, value.encode())
    root = fs.txn_root(txn)
    for _, edit in job.edits:
        do(root, filesystem, edit)
    try:
        _, revision = fs.commit_txn(txn)
        return revision, None
    except core.SubversionException as why:
        if why.apr_err != core.SVN_ERR_FS_CONFLICT:
            raise
        fs.abort_txn(txn)
        path = re.search("Conflict at '/(.*)'", str(why))[1]
        return None, tuple(name.encode() for name in path.split("/") if name)


def note_texts(changes):
    """Its library notes an empty text of each new file."""
    for path, change in changes.items():
        if change.action in ("add", "replace") and change.kind == "file" and change.source is None:
            changes[path] = change._replace(text=True)


def sides_of(history, job):
    """The two sides of a job's landing; none where an edit is refused."""
    try:
        transaction = Transaction(history.revisions, history.base_of(job))
        for _, edit in job.edits:
            transaction.do(edit)
    except Refused:
        return None
    return Sides(history.revisions, transaction)


def case_of(sides, path):
    """Of a clash of ours, why Subversion sees none: the transaction sets the properties of a directory of which the head changed no more
    than what is in it, or the head set a directory's properties to what they were."""
    if path in sides.before and sides.before[path].kind == "dir" and sides.holds(path) and sides.head_holds(path):
        if not sides.head_sets(path):
            return PROPERTIES
        if sides.head[path].props == sides.before[path].props:
            return EQUAL
    return None


def is_copied_whole(history, sides, path):
    """In the base it is a directory that came there when one above it was copied, and was not changed in that revision or since."""
    node = sides.before.get(path)
    if node is None or node.kind != "dir" or node.last_changed != node.added:
        return False
    changes = history.revisions[node.added].changes
    above = any(change.source is not None and covers(p, path) and p != path for p, change in changes.items())
    return above and not any(covers(path, p) for p in changes)


def difference(history, sides, theirs):
    """The case of what Subversion does otherwise with a job, or what it does, where it is no known one; none where it does the same.
    `theirs` is the path at which it conflicts, or none."""
    clashes = sides.all_clashes()
    ours = clashes[0] if clashes else None
    if ours == theirs:
        return None
    if theirs is None:
        unknown = [p for p in clashes if case_of(sides, p) is None]
        return f"landed in spite of {text(unknown[0])}" if unknown else case_of(sides, ours)
    if ours is None:
        return COPIED if is_copied_whole(history, sides, theirs) else f"conflicts at {text(theirs)}"
    known = theirs in clashes or is_copied_whole(history, sides, theirs)
    return ANOTHER if known else f"conflicts at {text(theirs)} in place of {text(ours)}"


def commit_jobs(path, script):
    """Commits the jobs of a script, one after another. What was done otherwise than by the simulation, for each job where it was."""
    repository = repos.create(path, None, None, None, {"compatible-version": "1.6"})
    filesystem = repos.fs(repository)
    history, differences = History(), []
    for job in script.jobs:
        sides = sides_of(history, job) if job.read is None else None
        if sides is None:
            continue
        _, theirs = commit(filesystem, job, sides.base)
        found = difference(history, sides, theirs)
        if found is not None:
            differences.append(found)
        if theirs is None:
            history.land(job, sides)
            note_texts(history.revisions[-1].changes)
    script.history = history
    return differences
