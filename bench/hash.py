#!/usr/bin/env python3
"""Measures `glacier hash` on one file, beside other programs that hash it.

    bench/hash.py [MEBIBYTES]

It writes a file of so many MiB (1,024 where no number is given) into a temporary folder, reads it once so that it lies
in the page cache, and prints a table: seconds of wall and of processor time (the least of five runs, one program after
another), megabytes a second, the speed as a ratio to Python's hashlib, and the most memory that was resident. Above it
stands how busy the machine was. The small program that hashes forked in memory is written into the same folder and
built there.
"""

import hashlib
import os
import shutil
import subprocess
import sys
import tempfile
import time

ROOT = os.path.dirname(os.path.dirname(os.path.abspath(__file__)))
RUNS = 5

HASHLIB = """
import hashlib, sys
h = hashlib.sha256()
with open(sys.argv[1], 'rb') as f:
    while piece := f.read(1048576):
        h.update(piece)
print(h.hexdigest())
"""

BOTOCORE = """
import sys
from botocore.utils import calculate_tree_hash
with open(sys.argv[1], 'rb') as f:
    print(calculate_tree_hash(f))
"""

FORKED = """//! The tree hash of a file that is read whole.
#![tactic(auto)]

use glacier_treehash::{Open, tree_hash_forked};
use std::process::ExitCode;
use std::{env, fs, io};

fn main(rt: HostRuntime) -> io::Result<ExitCode> {
    let mut words = env::args(&rt)?.skip(1);
    let Some(name) = words.next() else {
        return Ok(ExitCode::from(2));
    };
    let bytes = fs::read(&rt, name.as_str())?;
    if bytes.len() > 4_294_967_296 {
        return Ok(ExitCode::from(2));
    }
    let digest = tree_hash_forked(&rt, &bytes, 4, &Open);
    println!(rt; "{:02x}", digest.0[0])?;
    Ok(ExitCode::from(0))
}
"""


class Row:
    """A program that is measured: the least wall and processor seconds so far, and the most resident memory, in MiB."""

    def __init__(self, label, words):
        self.label, self.words = label, words
        self.wall = self.cpu = float("inf")
        self.memory = 0.0
        self.works = shutil.which(words[0]) is not None

    def run(self):
        start = time.monotonic()
        child = subprocess.Popen(self.words, stdout=subprocess.DEVNULL, stderr=subprocess.DEVNULL)
        _, status, usage = os.wait4(child.pid, 0)
        self.wall = min(self.wall, time.monotonic() - start)
        self.cpu = min(self.cpu, usage.ru_utime + usage.ru_stime)
        self.memory = max(self.memory, usage.ru_maxrss / 1024)
        self.works = status == 0


def build_forked(folder):
    """Builds the program that hashes a whole file forked, and answers its path, or None where it can't be built."""
    repository = os.path.join(folder, "forked")
    crates = os.path.join(repository, "crates")
    os.makedirs(os.path.join(crates, "forked", "src"))
    for crate in ("glacier_base", "glacier_treehash"):
        shutil.copytree(
            os.path.join(ROOT, "crates", crate), os.path.join(crates, crate), ignore=shutil.ignore_patterns("out")
        )
    shutil.copy(os.path.join(ROOT, "HANDLES"), repository)
    with open(os.path.join(ROOT, "crates.txt")) as lines:
        kept = [line for line in lines if line.startswith(("glacier_base", "glacier_treehash"))]
    with open(os.path.join(repository, "crates.txt"), "w") as out:
        out.write("".join(kept) + "forked: glacier_base glacier_treehash\n")
    with open(os.path.join(crates, "forked", "src", "main.rt"), "w") as out:
        out.write(FORKED)
    built = subprocess.run(
        ["rt", "run", "--", "/dev/null"], cwd=os.path.join(crates, "forked"), stdin=subprocess.DEVNULL, capture_output=True
    )
    program = os.path.join(crates, "forked", "out", "forked")
    return program if built.returncode == 0 and os.path.exists(program) else None


def main():
    size = int(sys.argv[1]) if len(sys.argv) > 1 else 1024
    with tempfile.TemporaryDirectory() as folder:
        name = os.path.join(folder, "file")
        with open(name, "wb") as file:
            for i in range(size):
                file.write(hashlib.sha256(i.to_bytes(8, "big")).digest() * 32768)
        subprocess.run(["cat", name], stdout=subprocess.DEVNULL, check=True)
        glacier = os.path.join(ROOT, "glacier")
        subprocess.run([glacier, "hash", "/dev/null"], stdout=subprocess.DEVNULL, check=True)
        rows = [
            Row("hashlib (Python, reads of 1 MiB)", ["python3", "-c", HASHLIB, name]),
            Row("glacier hash", [os.path.join(ROOT, "crates/glacier_cli/out/glacier_cli"), "hash", name]),
            Row("sha256sum", ["sha256sum", name]),
            Row("openssl dgst -sha256", ["openssl", "dgst", "-sha256", name]),
            Row("botocore calculate_tree_hash", ["python3", "-c", BOTOCORE, name]),
        ]
        forked = build_forked(folder)
        if forked:
            rows.append(Row("tree_hash_forked, grain 4, file read whole", [forked, name]))
        before = os.getloadavg()[0]
        for _ in range(RUNS):
            for row in rows:
                if row.works:
                    row.run()
        print(f"{size} MiB, {os.cpu_count()} processors, the least of {RUNS} runs, one program after another")
        print(f"load average over a minute: {before:.1f} before, {os.getloadavg()[0]:.1f} after")
        print(f"{'program':44} {'wall s':>8} {'cpu s':>8} {'MB/s':>8} {'ratio':>7} {'MiB':>7}")
        for row in rows:
            if not row.works:
                print(f"{row.label:44} failed or not there")
                continue
            rate = size * 1.048576 / row.wall
            ratio = rows[0].wall / row.wall
            print(f"{row.label:44} {row.wall:8.2f} {row.cpu:8.2f} {rate:8.0f} {ratio:7.2f} {row.memory:7.0f}")


if __name__ == "__main__":
    main()
