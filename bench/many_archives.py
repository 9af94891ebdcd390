#!/usr/bin/env python3
"""Measures what a small upload costs, and whether it stays so with many archives in the vault.

    bench/many_archives.py [ARCHIVES [FOLDER]]

So many archives (20,000 where no number is given) of 1 byte are uploaded on connections that are kept for 1,000 requests; FOLDER, a
temporary one where none is given, says which disk. It prints, for each tenth of them, the median wall time of an upload and the server's
processor time for one. Then a server with 10 archives is asked in turns with that one: an upload, a GET of the vault, a deletion, and three
small writes to a file of that disk with an fdatasync behind each. How the one with many stands to the other is told round
by round (the aim is at most 1.2). Then, by strace, how often which file is synced for an upload; how long opening takes, by the
clock and in processor time; and the most memory that was resident.
"""
import collections
import os
import re
import shutil
import statistics
import subprocess
import sys
import tempfile
import time

from archive_client import MIB, Client
from client import build, connected, free_port, middle, most_resident, processor_seconds, serving, write_keys

VAULT = "many"
ROUNDS = 200
BYTE = b"x"


class Server:
    """A program that serves a folder of its own."""

    def __init__(self, folder, quota, *more):
        self.folder, self.keys = folder, f"{folder}.keys"
        write_keys(self.keys, quota)
        if "--new" in more:
            os.mkdir(folder)
        start = time.monotonic()
        port = free_port()
        self.process = serving(folder, self.keys, port, *more)
        connected(port, self.process).close()
        self.opened = time.monotonic() - start
        self.spent = processor_seconds(self.process.pid)
        self.client = Client(port, self.process)

    def end(self):
        self.client.close()
        self.process.kill()
        self.process.wait()
        self.process.stdout.close()


def timed(times, call, *words):
    start = time.perf_counter()
    found = call(*words)
    times.append(time.perf_counter() - start)
    return found


def fill(server, count):
    """Uploads so many archives, and prints a line for each tenth."""
    server.client.make_vault(VAULT)
    print("| Archives before | Upload, microseconds (middle half) | Processor time of the server, microseconds |\n|---|---|---|")
    for first in range(0, count, count // 10):
        taken, before = [], processor_seconds(server.process.pid)
        for _ in range(count // 10):
            timed(taken, server.client.upload, VAULT, BYTE)
        spent = (processor_seconds(server.process.pid) - before) / len(taken)
        print(f"| {first:,} | {middle([1e6 * it for it in taken], 0)} | {1e6 * spent:.0f} |", flush=True)


def three_syncs(file):
    """What an upload does: its byte, a record and a closed gate, and then that gate."""
    for at, data in ((0, BYTE), (MIB, bytes(100)), (MIB - 1, b"\x01")):
        os.pwrite(file, data, at)
        os.fdatasync(file)


def compare(few, many, room):
    """Asks both in turns, and prints the medians and how one stands to the other."""
    times = [collections.defaultdict(list), collections.defaultdict(list)]
    syncs = []
    with open(f"{room}/beside", "wb") as beside:
        three_syncs(beside.fileno())
        for number in range(ROUNDS):
            timed(syncs, three_syncs, beside.fileno())
            for place in (0, 1) if number % 2 == 0 else (1, 0):
                client, its = (few, many)[place].client, times[place]
                archive = timed(its["upload"], client.upload, VAULT, BYTE)
                timed(its["GET of the vault"], client.described, VAULT)
                timed(its["deletion"], client.delete, VAULT, archive)
    print(f"\n| Microseconds, median of {ROUNDS} (middle half) | 10 archives | many | many by 10, round by round |\n|---|---|---|---|")
    for name in times[0]:
        columns = [middle([1e6 * it for it in its[name]], 0) for its in times]
        ratios = [one / other for other, one in zip(*(its[name] for its in times))]
        print(f"| {name} | {' | '.join(columns)} | {middle(ratios, 2)} |")
    beyond = 1e6 * (statistics.median(times[0]["upload"]) - statistics.median(syncs))
    print(f"| three syncs | {middle([1e6 * it for it in syncs], 0)} | | |")
    print(f"\nAn upload of 1 byte takes {beyond:.0f} microseconds beyond three syncs, the client's part counted (the aim: at most 200).")


def count_syncs(server, room, count):
    """Looks which files a server syncs for so many uploads."""
    log = f"{room}/strace"
    calls = "trace=fsync,fdatasync,sync,syncfs,sync_file_range,msync"
    words = ["strace", "-f", "-y", "-o", log, "-e", calls, "-p", str(server.process.pid)]
    tracer = subprocess.Popen(words, stderr=subprocess.PIPE)
    assert b"attached" in tracer.stderr.readline()
    for _ in range(count):
        server.client.upload(VAULT, BYTE)
    server.end()
    tracer.wait()
    tracer.stderr.close()
    with open(log, encoding="ascii", errors="replace") as it:
        found = re.findall(r"(?:fsync|fdatasync)\(\d+<([^>]*)>", it.read())
    files = dict(collections.Counter(os.path.basename(it) for it in found))
    print(f"Syncs of {count} uploads: {files} (at most 3 an upload).")
    assert len(found) <= 3 * count, "more than three an upload"


def main():
    count = int(sys.argv[1]) if len(sys.argv) > 1 else 20_000
    build()
    with tempfile.TemporaryDirectory(dir=sys.argv[2] if len(sys.argv) > 2 else None) as room:
        servers = []
        try:
            many = Server(f"{room}/many", count + 1000, "--new")
            servers.append(many)
            fill(many, count)
            resident = most_resident(many.process.pid)
            few = Server(f"{room}/few", 1000, "--new")
            servers.append(few)
            few.client.make_vault(VAULT)
            for _ in range(10):
                few.client.upload(VAULT, BYTE)
            compare(few, many, room)
            if shutil.which("strace"):
                count_syncs(few, room, 50)
            many.end()
            many = Server(many.folder, count + 1000)
            servers.append(many)
            found = many.client.described(VAULT)
            assert found == (count, count), found
            print(f"\nOpening with {count:,} archives: {many.opened:.2f} s, {many.spent:.2f} s of processor time.")
            print(f"Memory: at most {resident:.1f} MiB while they came, {most_resident(many.process.pid):.1f} MiB after opening.")
        finally:
            for it in servers:
                if it.process.poll() is None:
                    it.end()


if __name__ == "__main__":
    main()
