#!/usr/bin/env python3
"""Writes the dump of the small repository of `dumps` by the words of Subversion's dumpfile format, and compares it with the one that was written.
Each record ends its headers with an empty line, also where nothing comes behind them, and itself with two newlines.

    small_dump.py REPOS DUMP
"""
import hashlib
import sys

repos, dump = sys.argv[1:]


def file_of(name):
    with open(f"{repos}/db/{name}", "rb") as file:
        return file.read()


def block(pairs):
    return b"".join(b"K %d\n%s\nV %d\n%s\n" % (len(k), k, len(v), v) for k, v in pairs) + b"PROPS-END\n"


def revision(number):
    # the property file is the same pairs with another end
    props = file_of(f"revprops/0/{number}").removesuffix(b"END\n") + b"PROPS-END\n"
    return b"Revision-number: %d\nProp-content-length: %d\nContent-length: %d\n\n%s\n" % (number, len(props), len(props), props)


def text_lines(text):
    return b"Text-content-length: %d\nText-content-md5: %s\nText-content-sha1: %s\n" % (len(text), hashlib.md5(text).hexdigest().encode(), hashlib.sha1(text).hexdigest().encode())


hello = b"hello\n"
wanted = b"".join(
    [
        b"SVN-fs-dump-format-version: 2\n\nUUID: ",
        file_of("uuid").rstrip(b"\n"),
        b"\n\n",
        revision(0),
        revision(1),
        b"Node-path: a\nNode-kind: dir\nNode-action: add\n\n\n\n",
        b"Node-path: a/f\nNode-kind: file\nNode-action: add\n" + text_lines(hello) + b"Content-length: 6\n\n" + hello + b"\n\n",
        revision(2),
        b"Node-path: a\nNode-kind: dir\nNode-action: change\nProp-content-length: 10\nContent-length: 10\n\nPROPS-END\n\n\n",
        b"Node-path: a/f\nNode-action: delete\n\n\n\n",
        b"Node-path: b\nNode-kind: dir\nNode-action: add\nNode-copyfrom-rev: 1\nNode-copyfrom-path: a\n\n\n\n",
    ]
)
with open(dump, "rb") as file:
    found = file.read()
if found != wanted:
    at = next((i for i, (a, b) in enumerate(zip(found, wanted)) if a != b), min(len(found), len(wanted)))
    print(f"from {at} on: {found[at : at + 200]} and {wanted[at : at + 200]}")
    sys.exit(1)
