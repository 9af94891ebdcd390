#!/usr/bin/env python3
"""Prints the shape of the crates: sizes in lines, clauses and contracts, and below the table each place past an aim.

    bench/shape.py [FOLDER]

A line of the table has, for one crate, the lines of src/, specs/, lemmas and answers, its functions without those of
tests, `ensures` clauses a function, the share of src/ (without tests) that contracts take, definitions with more than six
arguments, the share of .antt lines above 120 columns, must-fail edits and tests. The aims are at most 6 clauses a
function, 6 arguments a definition, and 300 lines a file of src/, 150 of specs/, 250 of lemmas, 60 of answers.
"""
import os
import re
import sys

MOST_CLAUSES = MOST_ARGUMENTS = 6
MOST_COLUMNS = 120
MOST_LINES = {"src": 300, "specs": 150, "lemmas": 250, "answers": 60}
COLUMNS = ("src", "specs", "lemmas", "answers", "functions", "clauses", "contract", "arguments", "columns", "edits", "tests")
FUNCTION = re.compile(r"\s*(?:pub(?:\([a-z]+\))? )?(?:const |unsafe )*fn (\w+)")
DEFINITION = re.compile(
    r"^(?:(?:abbrev|unfoldable|opaque|pub) )*(\w[\w-]*) : (.*?)\n(?=\1[ \n])", re.MULTILINE | re.DOTALL
)
RECORD = re.compile(r"^(?:pub )?record (\w+)(.*?): Type", re.MULTILINE | re.DOTALL)
BINDER = re.compile(r"\(((?:[\w']+ ?)+):")


def files(folder, ending):
    """Yields the path and the lines of each file below a folder whose name ends so."""
    for at, _, names in os.walk(folder):
        for name in sorted(names):
            if name.endswith(ending):
                path = os.path.join(at, name)
                with open(path, encoding="utf-8") as file:
                    yield path, file.read().split("\n")


def functions(text):
    """Yields of each function its name, how many `ensures` clauses it has, and the lines of its contract."""
    at = 0
    while at < len(text):
        head = FUNCTION.match(text[at])
        at += not head
        if not head:
            continue
        clauses = contract = depth = 0
        inside = False
        while at < len(text):
            line = text[at].strip()
            begins = re.match(r"(requires|ensures)\b", line)
            inside = inside or bool(begins)
            clauses += line.startswith("ensures")
            at += 1
            if inside:
                contract += 1
                depth += line.count("{") - line.count("}")
                inside = depth > 0
                if inside or not line.endswith(";"):
                    continue
                break
            if line == "{" or line.endswith((" {", ";")):
                break
        yield head.group(1), clauses, contract


def definitions(text):
    """Yields of each definition its name, and how many arguments it takes that are not implicit."""
    joined = "\n".join(text)
    for name, sort in DEFINITION.findall(joined):
        depth = arrows = 0
        for sign in sort:
            depth += (sign in "({[⟦") - (sign in ")}]⟧")
            arrows += depth == 0 and sign == "→"
        yield name, arrows + sum(len(names.split()) - 1 for names in BINDER.findall(sort))
    for name, binders in RECORD.findall(joined):
        yield name, sum(len(names.split()) for names in BINDER.findall(binders))


class Crate:
    """What is counted of one crate, and its places past an aim."""

    def __init__(self, folder):
        self.folder, self.past = folder, []
        self.count = dict.fromkeys(COLUMNS, 0)
        self.code = self.antt = 0
        for path, text in files(os.path.join(folder, "src"), ".rt"):
            self.add_source(path, text)
        for path, text in files(os.path.join(folder, "specs"), ".antt"):
            self.add_proofs("specs", path, text)
            for name, arguments in definitions(text):
                if arguments > MOST_ARGUMENTS:
                    self.count["arguments"] += 1
                    self.past.append(f"{path}: {name} takes {arguments} arguments")
        for path, text in files(os.path.join(folder, "proofs"), ".antt"):
            by_hand = os.path.basename(path) in ("Answers.antt", "Invariants.antt", "Proof.antt")
            self.add_proofs("answers" if by_hand else "lemmas", path, text)
        self.count["edits"] = len(list(files(os.path.join(folder, "must-fail"), ".edit")))

    def add_lines(self, kind, path, text):
        self.count[kind] += len(text)
        if len(text) > MOST_LINES[kind]:
            self.past.append(f"{path}: {len(text)} lines")

    def add_source(self, path, text):
        self.add_lines("src", path, text)
        self.count["tests"] += sum("#[test]" in line for line in text)
        if "tests" in os.path.basename(path):
            return
        self.code += len(text)
        for name, clauses, contract in functions(text):
            self.count["functions"] += 1
            self.count["clauses"] += clauses
            self.count["contract"] += contract
            if clauses > MOST_CLAUSES:
                self.past.append(f"{path}: {name} has {clauses} clauses")

    def add_proofs(self, kind, path, text):
        self.add_lines(kind, path, text)
        self.antt += len(text)
        self.count["columns"] += sum(len(line) > MOST_COLUMNS for line in text)

    def row(self):
        shown = dict(self.count, clauses=f"{self.count['clauses'] / max(self.count['functions'], 1):.1f}")
        shown["contract"] = f"{100 * self.count['contract'] // max(self.code, 1)}%"
        shown["columns"] = f"{100 * self.count['columns'] // max(self.antt, 1)}%"
        return printed(os.path.basename(self.folder), shown)


def printed(name, shown):
    return f"{name:18}" + "".join(f"{shown.get(it, ''):>10}" for it in COLUMNS)


def main():
    top = sys.argv[1] if len(sys.argv) > 1 else os.path.dirname(os.path.dirname(os.path.abspath(__file__)))
    os.chdir(top)
    names = sorted(it for it in os.listdir("crates") if os.path.isdir(f"crates/{it}/src"))
    crates = [Crate(f"crates/{it}") for it in names]
    print(printed("crate", {it: it for it in COLUMNS}))
    for crate in crates:
        print(crate.row())
    whole = ("src", "specs", "lemmas", "answers", "functions", "arguments", "edits", "tests")
    print(printed("all", {it: sum(crate.count[it] for crate in crates) for it in whole}))
    past = [it for crate in crates for it in crate.past]
    if past:
        print(f"\nPast an aim ({len(past)}):")
        print("\n".join(past))


if __name__ == "__main__":
    main()
