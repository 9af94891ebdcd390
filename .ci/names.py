#!/usr/bin/env python3
"""Checks that each code name and each path that README.md and docs/ cite is there. It prints those that aren't, and then ends with 1.

A code name is a span between backquotes that is one identifier, or several joined by `::` or `.`; it is there where the
code, a script or the list of crates has the word, or a file its name.
"""
import os
import re
import sys

TOP = os.path.dirname(os.path.dirname(os.path.abspath(__file__)))
CODE = (".rt", ".antt", ".edit", ".py", ".sh", ".txt")
# Programs, libraries and words of other projects that the documents name.
OTHERS = set("""
    aws awscli boto3 botocore curl dd fdatasync hashlib kill ls moto moto_server mkdir nginx openssl python rt sha256sum
    strace taskset wrk email EINTR EMFILE SIGINT SIGTERM TCP_NODELAY Authorization Content Host Expect Range Connection Date
    Location
""".split())
NAME = re.compile(r"[A-Za-z_]\w*(?:(?:::|\.)[A-Za-z_]\w*)*(?:\(\))?\Z")
PATH = re.compile(r"(?:crates|docs|bench|src|specs|proofs|must-fail|\.ci)/[\w./-]*\Z")


def listed():
    """Yields the path of each file of the repository, from its top."""
    for at, folders, names in os.walk(TOP):
        folders[:] = [it for it in folders if it not in (".git", "out")]
        for name in names:
            yield os.path.relpath(os.path.join(at, name), TOP)


def text_of(path):
    with open(os.path.join(TOP, path), encoding="utf-8") as file:
        return file.read()


def main():
    paths = sorted(listed())
    words = set(OTHERS)
    for path in paths:
        words.update(re.split(r"[./]", path))
        if path.endswith(CODE) or "." not in os.path.basename(path):
            words.update(re.findall(r"[A-Za-z_]\w*", text_of(path)))
    ends = set()
    for path in paths:
        parts = path.split("/")
        ends.update("/".join(parts[i:j]) for i in range(len(parts)) for j in range(i + 1, len(parts) + 1))
        ends.update("/".join(parts[i:]).rsplit(".", 1)[0] for i in range(len(parts)))
    lost = []
    for path in paths:
        if path != "README.md" and not (path.startswith("docs/") and path.endswith(".md")):
            continue
        prose = re.sub(r"^```.*?^```", lambda it: "\n" * it.group().count("\n"), text_of(path), flags=re.S | re.M)
        for number, line in enumerate(prose.split("\n"), 1):
            for span in re.findall(r"`([^`]+)`", line):
                if PATH.match(span):
                    there = span.rstrip("/") in ends
                elif NAME.match(span) and not re.search(r"\d{9}", span):
                    first, *more = re.split(r"::|\.", span.removesuffix("()"))
                    there = first in OTHERS or all(it in words for it in [first, *more])
                else:
                    continue
                if not there:
                    lost.append(f"{path}:{number}: `{span}` isn't there")
    print("\n".join(lost), end="\n" if lost else "")
    return 1 if lost else 0


sys.exit(main())
