#!/usr/bin/env python3
"""Measures what a PUT and a DELETE of a vault cost beside the two syncs that each of them makes.

    bench/cost.py [REQUESTS [FOLDER]]

FOLDER, a temporary one where none is given, says which disk. In turns, so many of each (1,000 where no number is given):
two small writes to a file of that disk, each with an fdatasync behind it, made here; a PUT of a new vault; a GET; a
DELETE. It prints the median times. Then it counts by strace which files the server syncs.
"""
import collections
import os
import re
import statistics
import subprocess
import sys
import tempfile
import time

from client import KEPT, Replies, build, connected, free_port, serving, signed, write_keys


def two_syncs(file, at):
    """What an append does: a record and a closed gate, and then its gate."""
    start = time.perf_counter()
    os.pwrite(file, bytes(28), at)
    os.fdatasync(file)
    os.pwrite(file, b"\x01", at - 1)
    os.fdatasync(file)
    return time.perf_counter() - start


def timed(connection, replies, request, status):
    start = time.perf_counter()
    connection.sendall(request)
    reply = replies.next()
    taken = time.perf_counter() - start
    assert reply is not None and reply[0] == status, reply
    return taken


def measure(folder, port, count, times):
    """Makes and deletes so many vaults on one connection."""
    with connected(port) as it, open(f"{folder}/beside", "wb") as beside:
        replies = Replies(it)
        timed(it, replies, signed("PUT", "/-/vaults/kept"), 201)
        for number in range(count):
            path = f"/-/vaults/v{number}"
            times["two syncs"].append(two_syncs(beside.fileno(), 28 * number + 1))
            times["PUT"].append(timed(it, replies, signed("PUT", path), 201))
            times["GET"].append(timed(it, replies, signed("GET", path), 200))
            times["DELETE"].append(timed(it, replies, signed("DELETE", path), 204))
            times["PUT of a vault that is there"].append(timed(it, replies, signed("PUT", "/-/vaults/kept"), 201))


def synced(name):
    """How often each file was synced, by what strace wrote."""
    with open(name, encoding="ascii", errors="replace") as it:
        calls = re.findall(r"(?:fsync|fdatasync)\(\d+<([^>]*)>", it.read())
    return collections.Counter(os.path.basename(it) for it in calls)


def count_syncs(folder, keys, count):
    """Looks at a server that runs, once its first request was answered."""
    port = free_port()
    log = f"{folder}/strace"
    process = serving(f"{folder}/data", keys, port)
    with connected(port, process) as it:
        replies = Replies(it)
        timed(it, replies, signed("PUT", "/-/vaults/first"), 201)
        calls = "trace=fsync,fdatasync,sync,syncfs,sync_file_range,msync"
        tracer = subprocess.Popen(
            ["strace", "-f", "-y", "-o", log, "-e", calls, "-p", str(process.pid)], stderr=subprocess.PIPE
        )
        assert b"attached" in tracer.stderr.readline()
        for method, status in (("PUT", 201), ("GET", 200), ("DELETE", 204)):
            for number in range(count):
                timed(it, replies, signed(method, f"/-/vaults/s{number}"), status)
        process.kill()
        process.wait()
        tracer.wait()
    process.stdout.close()
    tracer.stderr.close()
    found = dict(synced(log))
    print(f"\nSyncs of {count} PUTs, {count} GETs and {count} DELETEs: {found}.")
    assert found == {"left": 4 * count}, "not two a change"


def main():
    count = int(sys.argv[1]) if len(sys.argv) > 1 else 1000
    build()
    with tempfile.TemporaryDirectory(dir=sys.argv[2] if len(sys.argv) > 2 else None) as folder:
        keys = f"{folder}/keys"
        write_keys(keys)
        os.mkdir(f"{folder}/data")
        port = free_port()
        process = serving(f"{folder}/data", keys, port, "--new")
        times = collections.defaultdict(list)
        try:
            connected(port, process).close()
            # four requests a vault, and a thousand a connection
            while len(times["PUT"]) < count:
                measure(folder, port, min(KEPT // 4 - 1, count - len(times["PUT"])), times)
        finally:
            process.kill()
            process.wait()
            process.stdout.close()
        middle = {name: statistics.median(all) * 1e6 for name, all in times.items()}
        print("| Microseconds, median of | " + " | ".join(middle) + " |")
        print("|---|" + "---|" * len(middle))
        print(f"| {count} | " + " | ".join(f"{it:.0f}" for it in middle.values()) + " |")
        for name in ("PUT", "DELETE"):
            beyond = middle[name] - middle["two syncs"] - middle["GET"]
            print(f"\nA {name} beyond two syncs and a GET: {beyond:.0f} microseconds (the aim is at most 50).")
        count_syncs(folder, keys, 50)


main()
