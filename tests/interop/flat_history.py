"""A flat simulation of job scripts: whole trees as maps from paths to nodes, and histories as lists of these. It shares no code with the
store, and knows nothing of files. A path is a tuple of names, each of them bytes, so that paths are ordered as lists of names."""
from typing import NamedTuple, Optional

LAST_REVISION = 2147483647


class Refused(Exception):
    """Why an edit is refused: the fault as it is printed."""


class Node(NamedTuple):
    """What stands at a path: its properties are pairs in the order of their names."""

    kind: str
    text: bytes = b""
    props: tuple = ()
    added: int = 0
    props_changed: int = 0
    last_changed: int = 0


class Mark(NamedTuple):
    """What an accepted edit leaves; what is 'make', 'gone', 'text' or 'prop', and a make may have a source."""

    path: tuple
    kind: str
    what: str
    source: Optional[tuple] = None


class Change(NamedTuple):
    """The change of a path in a revision; `was` is the kind of what its first delete took away."""

    action: str
    kind: str
    text: bool = False
    props: bool = False
    source: Optional[tuple] = None
    was: str = ""


class Revision(NamedTuple):
    tree: dict
    changes: dict
    props: dict


def text_of(path):
    """The text of a path."""
    return b"/" + b"/".join(path)


def covers(above, path):
    """A path is at or above another."""
    return path[: len(above)] == above


def told(word, path):
    return f"{word} {text_of(path).decode()}"


def node_at(tree, path):
    """The node at a path, or the first path on the way that leads to nothing, or to a file behind which names follow."""
    for count in range(len(path) + 1):
        node = tree.get(path[:count])
        if node is None:
            raise Refused(told("NotFound", path[:count]))
        if node.kind == "file" and count < len(path):
            raise Refused(told("NotDir", path[:count]))
    return tree[path]


class Transaction:
    """A base, a tree, and the marks of the edits in their order."""

    def __init__(self, history, base):
        self.history, self.base = history, base
        self.tree, self.marks = dict(history[base].tree), []

    def require_free(self, path):
        if node_at(self.tree, path[:-1]).kind == "file":
            raise Refused(told("NotDir", path[:-1]))
        if path in self.tree:
            raise Refused(told("Exists", path))

    def make(self, kind, path):
        self.require_free(path)
        self.tree[path] = Node(kind)
        self.marks.append(Mark(path, kind, "make"))

    def delete(self, path):
        kind = node_at(self.tree, path).kind
        if not path:
            raise Refused("RootFixed /")
        self.tree = {p: node for p, node in self.tree.items() if not covers(path, p)}
        self.marks.append(Mark(path, kind, "gone"))

    def copy(self, revision, source, target):
        self.require_free(target)
        youngest = len(self.history) - 1
        if revision > youngest:
            raise Refused(f"NoRev {revision} {youngest}")
        tree = self.history[revision].tree
        kind = node_at(tree, source).kind
        for path, node in tree.items():
            if covers(source, path):
                self.tree[target + path[len(source) :]] = node
        self.marks.append(Mark(target, kind, "make", (revision, source)))

    def put(self, path, text):
        if path not in self.tree:
            self.make("file", path)
        if self.tree[path].kind == "dir":
            raise Refused(told("NotFile", path))
        self.tree[path] = self.tree[path]._replace(text=text)
        self.marks.append(Mark(path, "file", "text"))

    def set_prop(self, path, name, value):
        node = node_at(self.tree, path)
        if name == "svn:mergeinfo":
            raise Refused(told("Mergeinfo", path))
        props = {**dict(node.props), name: value}
        if value is None:
            del props[name]
        self.tree[path] = node._replace(props=tuple(sorted(props.items())))
        self.marks.append(Mark(path, node.kind, "prop"))

    def do(self, edit):
        word, arguments = edit[0], edit[1:]
        if word in ("mkdir", "mkfile"):
            self.make("dir" if word == "mkdir" else "file", *arguments)
        else:
            {"rm": self.delete, "copy": self.copy, "put": self.put, "prop": self.set_prop}[word](*arguments)


class Sides:
    """What a transaction and a head have done since the transaction's base."""

    def __init__(self, history, transaction):
        self.base, self.transaction, self.marks = transaction.base, transaction, outer_marks(transaction.marks)
        self.before, self.own = history[transaction.base].tree, transaction.tree
        self.head, self.number = history[-1].tree, len(history)

    def touches(self, path):
        return not path or any(covers(path, m.path) and (m.what != "make" or m.path != path) for m in self.marks)

    def has_deleted(self, path):
        return any(m.what == "gone" and covers(m.path, path) for m in self.marks)

    def has(self, path, *whats):
        return any(m.what in whats and m.path == path for m in self.marks)

    def holds(self, path):
        return path in self.before and not self.has_deleted(path)

    def head_touches(self, path):
        return path not in self.head or self.head[path].last_changed > self.base

    def head_holds(self, path):
        return path in self.head and self.head[path].added <= self.base

    def head_sets(self, path):
        return path in self.head and self.head[path].props_changed > self.base

    def clashes(self, path):
        if path not in self.before:
            return path in self.head and path in self.own
        if not (self.touches(path) and self.head_touches(path)):
            return False
        goes_on = self.before[path].kind == "dir" and self.holds(path) and self.head_holds(path)
        return not goes_on or self.has(path, "prop") or self.head_sets(path)

    def is_reached(self, path):
        return all(self.holds(path[:n]) and self.head_holds(path[:n]) for n in range(len(path)))

    def all_clashes(self):
        """The paths at which the two clash, the least in front."""
        paths = sorted({*self.before, *self.own, *self.head})
        return [p for p in paths if self.is_reached(p) and self.clashes(p)]

    def first_clash(self):
        """The least path at which the two clash."""
        return next(iter(self.all_clashes()), None)

    def landed_node(self, path):
        if self.holds(path) and not self.has(path, "text", "prop"):
            return self.head.get(path)
        if path in self.before or path in self.own:
            return self.own.get(path)
        return self.head.get(path)

    def landed(self):
        """The tree of the new revision."""
        tree = {}
        for path in {*self.before, *self.own, *self.head}:
            node = self.landed_node(path)
            if node is not None:
                tree[path] = self.numbered(path, node)
        return tree

    def numbered(self, path, node):
        n = self.number
        if path in self.own and not self.holds(path):
            return node._replace(added=n, props_changed=n, last_changed=n)
        old = self.head[path]
        return node._replace(
            added=old.added,
            props_changed=n if self.has(path, "prop") else old.props_changed,
            last_changed=n if self.touches(path) else old.last_changed,
        )


def outer_marks(marks):
    """The marks above which the transaction has made nothing."""
    made, outer = set(), []
    for mark in marks:
        if not any(covers(path, mark.path) for path in made):
            outer.append(mark)
        if mark.what == "make":
            made.add(mark.path)
        elif mark.what == "gone":
            made = {path for path in made if not covers(mark.path, path)}
    return outer


def folded(marks):
    """The changed paths that marks come to."""
    changes = {}
    for mark in marks:
        if mark.what == "gone":
            changes = {p: c for p, c in changes.items() if p == mark.path or not covers(mark.path, p)}
        change = joined(changes.pop(mark.path, None), mark)
        if change is not None:
            changes[mark.path] = change
    return changes


def joined(change, mark):
    if mark.what == "make":
        if change is not None:
            return Change("replace", mark.kind, source=mark.source, was=change.was)
        return Change("add", mark.kind, source=mark.source)
    if mark.what == "gone":
        if change is None or change.action == "modify":
            return Change("delete", mark.kind, was=mark.kind)
        return None if change.action == "add" else Change("delete", change.was, was=change.was)
    change = change or Change("modify", mark.kind)
    return change._replace(text=change.text or mark.what == "text", props=change.props or mark.what == "prop")


class Job(NamedTuple):
    """A job: edits are pairs of the line on which each begins and the edit itself; a read has a path in their place."""

    line: int
    base: Optional[int]
    author: Optional[str]
    log: Optional[str]
    edits: list
    read: Optional[tuple] = None


class History:
    """The revisions, and what becomes of jobs on them."""

    def __init__(self):
        self.revisions = [Revision({(): Node("dir")}, {}, {})]

    def youngest(self):
        return len(self.revisions) - 1

    def base_of(self, job):
        """The revision that a job is about."""
        base = self.youngest() if job.base is None else job.base
        if base > self.youngest():
            raise Refused(f"NoRev {base} {self.youngest()}")
        return base

    def read(self, job):
        """The revision that a job reads, and the text."""
        try:
            base = self.base_of(job)
            node = node_at(self.revisions[base].tree, job.read)
            if node.kind == "dir":
                raise Refused(told("NotFile", job.read))
        except Refused as why:
            return f"refused {job.line} {why}"
        return base, node.text

    def run(self, job):
        """What is told of a job, behind its number."""
        line = job.line
        try:
            transaction = Transaction(self.revisions, self.base_of(job))
            for line, edit in job.edits:
                transaction.do(edit)
        except Refused as why:
            return f"refused {line} {why}"
        sides = Sides(self.revisions, transaction)
        clash = sides.first_clash()
        if clash is not None:
            return f"conflict r{self.youngest()} {text_of(clash).decode()}"
        return self.land(job, sides)

    def land(self, job, sides):
        """The job becomes the next revision."""
        props = {name: value for name, value in (("svn:author", job.author), ("svn:log", job.log)) if value is not None}
        self.revisions.append(Revision(sides.landed(), folded(sides.transaction.marks), props))
        return f"r{self.youngest()}"
