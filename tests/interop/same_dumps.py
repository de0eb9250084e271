#!/usr/bin/env python3
"""Compares two dumps, record by record: what `svnadmin dump` of ours wrote of a repository, and what Subversion's own writes of one into which
that was loaded.

    same_dumps.py OURS THEIRS REPOS    REPOS is the repository that was loaded, which says which changes of properties changed nothing

They are to be the same, but for what Subversion's own does otherwise:
  - the order of the paths of a revision;
  - the empty line that ends the headers of what is deleted, which it leaves out;
  - digests of the source of a copied file, which it writes and ours doesn't;
  - an empty block of properties and an empty text of what is added without a source, which it writes and ours doesn't;
  - a replace without a source, which it writes as one record and ours as a delete and an add;
  - a property block that it leaves out where a copy or a change sets properties to what they were, and a record that changed nothing.
It ends with status 1 where they are not, and says where.
"""
import subprocess
import sys

# What the contents say too, and digests of the source of a copy. (Its load verifies the digests of texts.)
OF_CONTENTS = {"Prop-content-length", "Text-content-length", "Content-length", "Text-content-md5", "Text-content-sha1", "Text-copy-source-md5", "Text-copy-source-sha1"}


class Record:
    def __init__(self, headers, props, text):
        self.headers, self.props, self.text = headers, props, text

    def key(self):
        """All of it that counts."""
        headers = sorted((name, value) for name, value in self.headers.items() if name not in OF_CONTENTS)
        props, text = self.props, self.text
        if self.headers.get("Node-action") == "add" and "Node-copyfrom-path" not in self.headers:
            props = props or {}
            text = text or (b"" if self.headers["Node-kind"] == "file" else None)
        return headers, sorted(props.items()) if props is not None else None, text

    def name(self):
        return f"{self.headers.get('Node-action')} {self.headers.get('Node-path')}"


def pairs_of(block):
    pairs, at = {}, 0
    while block[at:] != b"PROPS-END\n":
        parts = []
        for letter in b"KV":
            end = block.index(b"\n", at)
            assert block[at : at + 1] == bytes([letter]), block[at:end]
            length = int(block[at + 2 : end])
            parts.append(block[end + 1 : end + 1 + length])
            at = end + length + 2
        pairs[parts[0]] = parts[1]
    return pairs


def records_of(path):
    """The records of a dump, those of each revision behind its number."""
    with open(path, "rb") as file:
        dump = file.read()
    at, revisions, head = 0, [], []
    while at < len(dump):
        if dump[at : at + 1] == b"\n":
            at += 1
            continue
        end = dump.index(b"\n\n", at)
        headers = headers_of(dump[at:end])
        at = end + 2
        props_length, text_length = int(headers.get("Prop-content-length", 0)), int(headers.get("Text-content-length", 0))
        content = int(headers.get("Content-length", 0))
        assert content == props_length + text_length, headers
        props = pairs_of(dump[at : at + props_length]) if "Prop-content-length" in headers else None
        text = dump[at + props_length : at + content] if "Text-content-length" in headers else None
        at += content
        record = Record(headers, props, text)
        if "Revision-number" in headers:
            revisions.append((record, []))
        elif revisions:
            revisions[-1][1].append(record)
        else:
            head.append(record)
    return head, revisions


def headers_of(lines):
    headers = {}
    for line in lines.decode("utf-8", "surrogateescape").split("\n"):
        name, value = line.split(": ", 1) if ": " in line else (line.rstrip(":"), "")
        headers[name] = value
    return headers


def apart(records):
    """A replace without a source as a delete and an add."""
    for record in records:
        if record.headers.get("Node-action") == "replace":
            path = record.headers["Node-path"]
            yield Record({"Node-path": path, "Node-action": "delete"}, None, None)
            yield Record({**record.headers, "Node-action": "add"}, record.props, record.text)
        else:
            yield record


def props_at(repos, rev, path):
    """The lines of its properties, without those that name the path."""
    listed = subprocess.run(["/usr/bin/svnlook", "proplist", "-v", "--xml", "-r", str(rev), repos, path or "/"], capture_output=True)
    return sorted(listed.stdout.partition(b'">\n')[2].split(b"\n")) if listed.returncode == 0 else None


def was_idle(repos, rev, record):
    """Its properties were set to what they were, where it came from or before."""
    path = record.headers["Node-path"]
    source = record.headers.get("Node-copyfrom-path", path)
    before = int(record.headers.get("Node-copyfrom-rev", rev - 1))
    return record.props is not None and props_at(repos, before, source) == props_at(repos, rev, path)


def compare(rev, ours, theirs, repos):
    """What differs in a revision."""
    left = {record.name(): record for record in apart(theirs)}
    for record in apart(ours):
        other = left.pop(record.name(), None)
        if other is not None and other.key() == record.key():
            continue
        if not was_idle(repos, rev, record):
            return f"r{rev}: {record.name()}: {record.key()} and {other and other.key()}"
        without = Record({**record.headers}, None, record.text)
        if other is None:
            if record.text is not None or record.headers["Node-action"] != "change":
                return f"r{rev}: {record.name()} is missing"
        elif other.key() != without.key():
            return f"r{rev}: {record.name()}: {without.key()} and {other.key()}"
    return f"r{rev}: {sorted(left)} is more" if left else None


def main(ours, theirs, repos):
    head, revisions = records_of(ours)
    other_head, others = records_of(theirs)
    if [it.key() for it in head] != [it.key() for it in other_head] or len(revisions) != len(others):
        return f"heads {[it.headers for it in head]} and {[it.headers for it in other_head]}, {len(revisions)} and {len(others)} revisions"
    for rev, ((props, records), (other, more)) in enumerate(zip(revisions, others)):
        if props.key() != other.key():
            return f"r{rev}: its properties"
        why = compare(rev, records, more, repos)
        if why:
            return why
    return None


why = main(*sys.argv[1:])
if why:
    print(why)
    sys.exit(1)
