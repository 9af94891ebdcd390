#!/usr/bin/env python3
"""Kills `glacier serve` while archives go in, out and away, and looks whether what it told its client is found again.

    bench/kill_archives.py [ROUNDS [SEED]]

Each round (100 where no number is given) starts the program on the same folder, with a delay of no second, and compares what is there
with what was told. Then archives of 1 byte to 64 MiB are uploaded, deleted and retrieved, one request after another, and
at a random moment, mostly while a body is on its way, `kill -9` ends the program. What is compared:

- the number of archives in the vault and their bytes together;
- of some archives, and at the end of all, the bytes, by a new retrieval; one that was deleted is no archive any more;
- the output of some jobs that were begun before, also of archives that were deleted since;
- of an upload without a byte of its reply: either there is no archive, or it has all of its bytes. Ids are numbers in
  their order, so the script asks for the next one. A deletion without a reply was done or not.

A kill leaves what the system had in its memory, so this shows nothing of a power cut. An archive that is lost, or has other bytes, ends the script with 1.
"""
import os
import random
import signal
import sys
import tempfile
import threading

from archive_client import MIB, Client, Lost, tree_hash
from client import build, free_port, serving, write_keys

VAULT = "kept"
QUOTA = 6000
# blocks above which only small archives are uploaded
AMPLE = 4000
MOST_LIVE = 16
LONGEST_ROUND = 0.6
POOL = random.Random(1).randbytes(80 * MIB)


class Told:
    """What the client was told: archives by their ids, with the place and the size of their bytes in the pool."""

    def __init__(self):
        self.live, self.gone, self.jobs = {}, [], {}
        # the highest number in an id that was told
        self.last = 0
        # the request of which no byte of the reply came: its kind, and what it is about
        self.open = None
        self.blocks = self.acknowledged = self.done_untold = self.not_done = self.compared = 0

    def id(self, text):
        self.last = max(self.last, int(text[1:]))
        return text

    def totals(self):
        return len(self.live), sum(size for _, size in self.live.values())


def bytes_of(stretch):
    at, size = stretch
    return memoryview(POOL)[at : at + size]


def fail(text):
    raise SystemExit(f"lost: {text}")


def has_bytes(told, client, archive, stretch):
    """Retrieves an archive and compares it."""
    job = told.id(client.begin(VAULT, archive))
    shown = client.wait(VAULT, job)
    if shown["StatusCode"] != "Succeeded" or shown["ArchiveSHA256TreeHash"] != tree_hash(bytes_of(stretch)):
        fail(f"the job on {archive} shows {shown}")
    told.jobs[job] = stretch
    has_output(told, client, job)


def has_output(told, client, job):
    reply, stretch = client.output(VAULT, job), told.jobs[job]
    if reply.status != 200 or reply.body != bytes_of(stretch):
        fail(f"the output of {job}: status {reply.status}, {len(reply.body)} of {stretch[1]} bytes")
    if reply.fields.get("x-amz-sha256-tree-hash") != tree_hash(bytes_of(stretch)):
        fail(f"the output of {job} has {reply.fields}")
    told.compared += 1


def is_gone(told, client, archive):
    reply = client.beginning(VAULT, archive)
    if reply.status != 404:
        fail(f"{archive} was deleted, and a retrieval is answered {reply.status} {reply.body}")


def settle(told, client):
    """Finds out whether the request without a reply was done, by what the vault holds."""
    kind, what = told.open or (None, None)
    told.open = None
    found, was = client.described(VAULT), told.totals()
    done = found != was
    if kind == "upload" and done:
        archive = told.id(f"a{told.last + 1:020d}")
        told.live[archive] = what
        has_bytes(told, client, archive, what)
    if kind == "delete" and done:
        del told.live[what]
        told.gone.append(what)
    if kind == "begin":
        # a job takes a number too, and isn't seen in the vault
        told.last += client.ask("GET", f"/-/vaults/{VAULT}/jobs/j{told.last + 1:020d}").status == 200
    if kind in ("upload", "delete"):
        told.done_untold += done
        told.not_done += not done
    if found != told.totals():
        fail(f"the vault has {found}, and {told.totals()} were told; open was {kind} {what}")


def check(told, client, all_of_them):
    settle(told, client)
    some = list(told.live) if all_of_them else random.sample(list(told.live), min(3, len(told.live)))
    for archive in some:
        has_bytes(told, client, archive, told.live[archive])
    for archive in told.gone if all_of_them else told.gone[-5:]:
        is_gone(told, client, archive)
    for job in list(told.jobs) if all_of_them else random.sample(list(told.jobs), min(2, len(told.jobs))):
        has_output(told, client, job)


def new_stretch(told):
    """A place in the pool, and a size: each length in digits as likely as the next, and often at the end of a piece."""
    most = 26 if told.blocks < AMPLE else 16
    size = int(2 ** (random.random() * most))
    if random.random() < 0.2 and most == 26:
        size = random.choice([1, MIB, MIB + 1, 16 * MIB - 1, 16 * MIB, 16 * MIB + 1, 32 * MIB, 64 * MIB])
    return random.randrange(len(POOL) - size), size


def act(told, client):
    """Does one thing, and takes down what it is before it is asked, and what was told behind it."""
    choice = random.random()
    if len(told.live) >= MOST_LIVE or (told.live and choice < 0.25):
        archive = random.choice(list(told.live))
        told.open = ("delete", archive)
        client.delete(VAULT, archive)
        del told.live[archive]
        told.gone.append(archive)
    elif told.live and choice < 0.45:
        archive = random.choice(list(told.live))
        told.open = ("begin", archive)
        job = told.id(client.begin(VAULT, archive))
        told.open = None
        client.wait(VAULT, job)
        told.jobs[job] = told.live[archive]
        has_output(told, client, job)
    else:
        stretch = new_stretch(told)
        told.open = ("upload", stretch)
        archive = told.id(client.upload(VAULT, bytes_of(stretch)))
        told.live[archive] = stretch
        told.blocks += -(-stretch[1] // MIB)
    told.open = None
    told.acknowledged += 1


def round_of(told, folder, keys, number):
    port = free_port()
    process = serving(folder, keys, port, "--delay", "0", *(["--new"] if number == 0 else []))
    try:
        with Client(port, process) as client:
            if number == 0:
                client.make_vault(VAULT)
            check(told, client, False)
            killer = threading.Timer(random.random() * LONGEST_ROUND, process.kill)
            killer.start()
            try:
                while True:
                    act(told, client)
            except (Lost, ConnectionError, SystemExit) as it:
                # `connected` ends the script where the program has ended, which it has by the signal
                if str(it).startswith("lost"):
                    raise
            killer.join()
            assert process.wait() == -signal.SIGKILL, process.returncode
    finally:
        process.kill()
        process.wait()
        process.stdout.close()


def main():
    rounds = int(sys.argv[1]) if len(sys.argv) > 1 else 100
    seed = int(sys.argv[2]) if len(sys.argv) > 2 else random.randrange(1 << 32)
    random.seed(seed)
    print(f"seed {seed}", flush=True)
    build()
    told = Told()
    with tempfile.TemporaryDirectory() as room:
        keys, folder = f"{room}/keys", f"{room}/data"
        write_keys(keys, QUOTA)
        os.mkdir(folder)
        for number in range(rounds):
            round_of(told, folder, keys, number)
        port = free_port()
        process = serving(folder, keys, port, "--delay", "0")
        try:
            with Client(port, process) as client:
                check(told, client, True)
        finally:
            process.kill()
            process.wait()
            process.stdout.close()
        lengths = ", ".join(f"{name} {os.path.getsize(f'{folder}/{name}'):,}" for name in ("left", "blobs"))
    print(f"{rounds} rounds, {told.acknowledged:,} requests acknowledged and none lost, {told.compared:,} outputs compared;")
    print(f"{told.done_untold} uploads and deletions without a reply were done, {told.not_done} weren't.")
    print(f"{len(told.live)} archives, {len(told.gone)} deleted, {len(told.jobs)} jobs; bytes: {lengths}.")


if __name__ == "__main__":
    main()
