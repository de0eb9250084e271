"""What Subversion's own tools show of a repository, compared with a flat simulation (`flat_history.py`): `verify`, `dump`, checkouts with
their properties, and `log -v`."""
import os
import re
import shutil
import subprocess
import xml.etree.ElementTree as xml
from urllib.parse import unquote

ENVIRONMENT = {**os.environ, "LC_ALL": "C.UTF-8", "TZ": "UTC"}


class Differs(Exception):
    """What was compared is not as it should be."""


def output(*command, feed=None, status=0):
    """What a command prints; it has to end with the status."""
    done = subprocess.run(command, input=feed, capture_output=True, env=ENVIRONMENT, check=False)
    if done.returncode != status:
        raise Differs(f"{' '.join(map(str, command))}: status {done.returncode}, {done.stderr.decode(errors='replace')}")
    return done.stdout


def same(what, found, wanted):
    if found != wanted:
        raise Differs(f"{what}:\n  found  {found!r}\n  wanted {wanted!r}")


def path_of(text):
    """The path of a text with or without its first slash."""
    return tuple(name.encode() for name in text.split("/") if name)


def logged_changes(url):
    """Of each revision from 1 on its changed paths, author and log, by `svn log -v`."""
    found = {}
    for entry in xml.fromstring(output("/usr/bin/svn", "log", "-v", "--xml", "-r", "0:HEAD", url)):
        changes = {}
        for change in entry.iter("path"):
            source = change.get("copyfrom-path")
            from_ = (int(change.get("copyfrom-rev")), path_of(source)) if source is not None else None
            flags = change.get("text-mods") == "true", change.get("prop-mods") == "true"
            changes[path_of(change.text)] = change.get("action"), change.get("kind"), *flags, from_
        props = {name: entry.findtext(tag) for name, tag in (("svn:author", "author"), ("svn:log", "msg"))}
        found[int(entry.get("revision"))] = changes, props
    return found


def wanted_changes(revision):
    """The same by the simulation."""
    letters = {"add": "A", "delete": "D", "replace": "R", "modify": "M"}
    return {p: (letters[c.action], c.kind, c.text, c.props, c.source) for p, c in revision.changes.items()}


def compare_log(url, history):
    logged = logged_changes(url)
    same("the revisions of the log", sorted(logged), list(range(1, len(history.revisions))))
    for number, revision in enumerate(history.revisions[1:], 1):
        changes, props = logged[number]
        same(f"the changed paths of r{number}", changes, wanted_changes(revision))
        same(f"the author of r{number}", props["svn:author"], revision.props.get("svn:author"))
        same(f"the log of r{number}", props["svn:log"] or "", revision.props.get("svn:log", ""))


def checked_out(url, number, folder):
    """The kinds and texts of a revision, by a checkout."""
    found = {(): ("dir", b"")}
    output("/usr/bin/svn", "checkout", "-q", "-r", str(number), f"{url}@{number}", folder)
    for parent, directories, files in os.walk(os.fsencode(folder)):
        if b".svn" in directories:
            directories.remove(b".svn")
        at = tuple(name for name in os.path.relpath(parent, os.fsencode(folder)).split(b"/") if name != b".")
        found.update({(*at, name): ("dir", b"") for name in directories})
        for name in files:
            with open(os.path.join(parent, name), "rb") as file:
                found[(*at, name)] = "file", file.read()
    shutil.rmtree(folder)
    return found


def listed_props(url, number):
    """The properties at each path of a revision that has some."""
    listing = xml.fromstring(output("/usr/bin/svn", "proplist", "-v", "--xml", "-R", f"{url}@{number}"))
    return {
        path_of(unquote(target.get("path"))[len(url) :]): {p.get("name"): (p.text or "").encode() for p in target.iter("property")}
        for target in listing.iter("target")
    }


def compare_tree(url, number, tree, folder):
    wanted = {path: (node.kind, node.text) for path, node in tree.items()}
    same(f"the tree of r{number}", checked_out(url, number, os.path.join(folder, "copy")), wanted)
    props = {path: dict(node.props) for path, node in tree.items() if node.props}
    same(f"the properties of r{number}", listed_props(url, number), props)


def headers_of(lines):
    return {name: value for name, _, value in (line.decode().partition(": ") for line in lines)}


def dumped_props(block):
    props, at = {}, 0
    while not block.startswith(b"PROPS-END\n", at):
        parts = []
        for letter in b"KV":
            end = block.index(b"\n", at)
            size = int(block[at + 2 : end])
            same("a line of properties", block[at], letter)
            parts.append(block[end + 1 : end + 1 + size])
            at = end + 2 + size
        props[parts[0].decode()] = parts[1]
    return props


def records_of(dump):
    """The records of a dump: their headers, properties and text."""
    at = 0
    while at < len(dump):
        if dump.startswith(b"\n", at):
            at += 1
            continue
        end = dump.index(b"\n\n", at)
        headers = headers_of(dump[at:end].split(b"\n"))
        at = end + 2
        sizes = [int(headers.get(name, 0)) for name in ("Prop-content-length", "Text-content-length")]
        props = dumped_props(dump[at : at + sizes[0]]) if sizes[0] else None
        text = dump[at + sizes[0] : at + sum(sizes)] if "Text-content-length" in headers else None
        at += int(headers.get("Content-length", 0))
        yield headers, props, text


def compare_revision(number, revision, props):
    """A revision's own record."""
    same(f"the names of r{number}'s properties", set(props), {"svn:date", *revision.props})
    same(f"the date of r{number}", bool(re.fullmatch(rb"\d{4}-\d\d-\d\dT\d\d:\d\d:\d\d\.\d{6}Z", props["svn:date"])), True)
    same(f"r{number}'s properties", {name: props[name].decode() for name in revision.props}, revision.props)


def compare_dump(repos, history):
    """Each record agrees with the tree; and each changed path has one, and no other path."""
    number, paths = -1, set()
    for headers, props, text in records_of(output("/usr/bin/svnadmin", "dump", "-q", repos)):
        if "Revision-number" in headers:
            if number >= 0:
                same(f"the paths of r{number} in the dump", paths, set(history.revisions[number].changes))
            number, paths = int(headers["Revision-number"]), set()
            compare_revision(number, history.revisions[number], props)
        elif "Node-path" in headers:
            path = path_of(headers["Node-path"])
            paths.add(path)
            compare_record(number, path, history.revisions[number], headers, props, text)
    same("the last revision of the dump", number, history.youngest())
    same(f"the paths of r{number} in the dump", paths, set(history.revisions[number].changes))


def compare_record(number, path, revision, headers, props, text):
    if headers["Node-action"] == "delete":
        return
    node, change = revision.tree[path], revision.changes[path]
    same(f"the kind of {path} in r{number}", headers.get("Node-kind", node.kind), node.kind)
    source = headers.get("Node-copyfrom-path")
    found = (int(headers["Node-copyfrom-rev"]), path_of(source)) if source is not None else None
    same(f"the source of {path} in r{number}", found, change.source)
    if text is not None:
        same(f"the text of {path} in r{number}", text, node.text)
    if props is not None:
        same(f"the properties of {path} in r{number}", props, {name: value for name, value in node.props})


def compare_changes(repos, history):
    """The repository is sound, and its log and its dump show what the simulation changed."""
    output("/usr/bin/svnadmin", "verify", "-q", repos)
    compare_log("file://" + repos, history)
    compare_dump(repos, history)


def compare(repos, history, folder):
    """All that Subversion's own tools show of a repository is the simulation's."""
    compare_changes(repos, history)
    for number, revision in enumerate(history.revisions):
        compare_tree("file://" + repos, number, revision.tree, folder)


def compare_last(repos, history, folder):
    """The same, but of trees the last one alone."""
    compare_changes(repos, history)
    compare_tree("file://" + repos, history.youngest(), history.revisions[-1].tree, folder)
