#!/usr/bin/env python3
"""Measures an upload and an output of one large archive, beside what the machine can do with the same bytes.

    bench/archives.py [MEBIBYTES [ROUNDS [FOLDER]]]

A file of so many MiB (1,024 where no number is given) is written into a folder (a temporary one where none is given; it says which
disk, and needs room for three such files). In each of so many rounds (3) these come one after the other:

- `hash` of the file by the program itself, on one processor: the SHA-256 of a body is one chain, which can't be split;
- `dd` of the file into another one, which is synced;
- an upload of the file on one connection, from its first byte to the end of the reply; the archive is deleted behind it, but for the last;
- `cat` of the file into a socket, and the output of a job on that archive, both taken by the same client.

It prints megabytes a second, the median over the rounds, and how an upload stands to the slower of the first two and an output to `cat`,
round by round. Then the most memory that the server had resident, and whether the output has the bytes of the file. Where boto3 and
moto are installed, an upload of 64 MiB (or less) by boto3 is timed with this server and with moto's.
"""
import hashlib
import importlib.util
import os
import shutil
import socket
import statistics
import subprocess
import sys
import tempfile
import threading
import time

from archive_client import MIB, Client, drained, file_digests
from client import KEYS, PROGRAM, build, connected, free_port, most_resident, serving, write_keys

VAULT = "bench"
ON_ONE = ["taskset", "-c", "0"] if shutil.which("taskset") else []


def write_file(name, count):
    with open(name, "wb") as it:
        for number in range(count):
            it.write(hashlib.sha256(number.to_bytes(8, "big")).digest() * (MIB // 32))


def ran(words):
    start = time.monotonic()
    subprocess.run(words, stdout=subprocess.DEVNULL, stderr=subprocess.DEVNULL, check=True)
    return time.monotonic() - start


def cat(name):
    """How long it takes until a file that `cat` writes into a socket was taken."""
    with socket.create_server(("127.0.0.1", 0)) as listener:

        def send():
            it, _ = listener.accept()
            with it:
                subprocess.run(["cat", name], stdout=it.fileno(), check=True)

        sender = threading.Thread(target=send)
        sender.start()
        with socket.create_connection(listener.getsockname()) as it:
            start = time.monotonic()
            count = drained(it)
            taken = time.monotonic() - start
        sender.join()
    assert count == os.path.getsize(name)
    return taken


def uploaded(client, name, digests):
    with open(name, "rb") as it:
        client.described(VAULT)
        start = time.monotonic()
        archive = client.upload(VAULT, it, digests)
        return time.monotonic() - start, archive


def measure(client, folder, name, rounds):
    """The seconds of each step in each round, and the job on the last archive."""
    digests = file_digests(name)
    seconds = {it: [] for it in ("hash", "dd", "upload", "cat", "output")}
    for number in range(rounds):
        seconds["hash"].append(ran([*ON_ONE, PROGRAM, "hash", name]))
        seconds["dd"].append(ran(["dd", f"if={name}", f"of={folder}/copy", "bs=16M", "conv=notrunc,fsync"]))
        taken, archive = uploaded(client, name, digests)
        seconds["upload"].append(taken)
        if number < rounds - 1:
            client.delete(VAULT, archive)
    job = client.begin(VAULT, archive)
    client.wait(VAULT, job)
    for _ in range(rounds):
        seconds["cat"].append(cat(name))
        start = time.monotonic()
        client.drained(VAULT, job)
        seconds["output"].append(time.monotonic() - start)
    return seconds, job


def is_same(client, name, job):
    """Whether a job's output is the file, taken in stretches of 16 MiB."""
    with open(name, "rb") as it:
        at = 0
        while piece := it.read(16 * MIB):
            if client.output(VAULT, job, f"{at}-{at + len(piece) - 1}").body != piece:
                return False
            at += len(piece)
    return True


def by_boto3(port, name):
    """How long an upload by boto3 takes, the least of three."""
    import boto3

    glacier = boto3.client(
        "glacier",
        endpoint_url=f"http://127.0.0.1:{port}",
        region_name="us-east-1",
        aws_access_key_id=KEYS[1],
        aws_secret_access_key=KEYS[2],
    )
    glacier.create_vault(vaultName="boto3")
    taken = []
    for _ in range(3):
        with open(name, "rb") as it:
            start = time.monotonic()
            archive = glacier.upload_archive(vaultName="boto3", body=it)["archiveId"]
            taken.append(time.monotonic() - start)
        glacier.delete_archive(vaultName="boto3", archiveId=archive)
    return min(taken)


def beside_moto(port, name, count):
    if not (importlib.util.find_spec("boto3") and importlib.util.find_spec("moto")):
        return
    there = free_port()
    moto = subprocess.Popen(
        [sys.executable, "-m", "moto.server", "-p", str(there)], stdout=subprocess.DEVNULL, stderr=subprocess.DEVNULL
    )
    try:
        connected(there).close()
        ours, theirs = by_boto3(port, name), by_boto3(there, name)
    finally:
        moto.terminate()
        moto.wait()
    print(f"\nAn upload of {count} MiB by boto3 takes {ours:.2f} s, and with moto's server {theirs:.2f} s.")


def report(seconds, megabytes):
    print("| Step | Megabytes a second | Seconds |\n|---|---|---|")
    for name, taken in seconds.items():
        middle = statistics.median(taken)
        print(f"| {name} | {megabytes / middle:.0f} | {middle:.2f} ({min(taken):.2f} to {max(taken):.2f}) |")
    steps = zip(seconds["hash"], seconds["dd"], seconds["upload"])
    to_slower = statistics.median(max(hashed, copied) / taken for hashed, copied, taken in steps)
    to_cat = statistics.median(one / other for one, other in zip(seconds["cat"], seconds["output"]))
    print(f"\nAn upload has {to_slower:.2f} of the rate of the slower of `hash` and `dd` (the aim is at least 0.7),")
    print(f"an output {to_cat:.2f} of the rate of `cat` (at least 0.8).")


def main():
    count = int(sys.argv[1]) if len(sys.argv) > 1 else 1024
    rounds = int(sys.argv[2]) if len(sys.argv) > 2 else 3
    build()
    with tempfile.TemporaryDirectory(dir=sys.argv[3] if len(sys.argv) > 3 else None) as folder:
        name, keys, port = f"{folder}/file", f"{folder}/keys", free_port()
        write_file(name, count)
        write_keys(keys, 2 * count + 256)
        os.mkdir(f"{folder}/data")
        process = serving(f"{folder}/data", keys, port, "--delay", "0", "--new")
        try:
            with Client(port, process) as client:
                client.make_vault(VAULT)
                print(f"{count} MiB, {rounds} rounds, {os.cpu_count()} processors, load {os.getloadavg()[0]:.1f}\n")
                seconds, job = measure(client, folder, name, rounds)
                report(seconds, count * MIB / 1e6)
                print(f"Memory of the server: at most {most_resident(process.pid):.1f} MiB (below 64).")
                assert is_same(client, name, job), "the output isn't what was uploaded"
                print("The output is what was uploaded.")
            small = min(count, 64)
            write_file(name, small)
            beside_moto(port, name, small)
        finally:
            process.kill()
            process.wait()
            process.stdout.close()


if __name__ == "__main__":
    main()
