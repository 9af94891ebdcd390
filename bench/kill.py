#!/usr/bin/env python3
"""Kills `glacier serve` again and again, and looks whether what it told its clients is found again.

    bench/kill.py [ROUNDS [SEED]]

Each round (500 where no number is given) starts the program on the same folder and asks for each vault that is to be there,
for the last 500 that were deleted, and at the end for all that the rounds spoke of. Then vaults are made and deleted, one request after another or many at once, and at a random moment
`kill -9` ends the program. Where at least one byte of a reply came, what was asked for was done: a vault that was made
is to be there, with the date that it had, and one that was deleted isn't. A request without a byte of its reply may have
been done or not; the next round sees which, and from then on that stays.

Then it measures how long opening takes: journals of so many records are written here by the rules in
docs/rules/journal.md, and the time is taken from the start of the program until it listens.

A kill leaves what the system had in its memory, so this shows nothing of a power cut: what a disk may lose is the model's
part (docs/rules/disk.md), and is proved. Statuses other than 0, and a lost request, end the script with 1.
"""
import json
import os
import random
import signal
import struct
import sys
import tempfile
import threading
import time

from client import KEPT, KEYS, Replies, build, connected, free_port, serving, signed, write_keys

MOST_VAULTS = 300
LONGEST_ROUND = 0.05


def path_of(name):
    return f"/-/vaults/{name}"


class Told:
    """What clients were told of each vault: the date that it was made at, None where it isn't there."""

    def __init__(self):
        self.dates = {}
        # vaults with a request of which no byte of the reply came, and those deleted of late
        self.open = set()
        self.gone = []
        self.count = 0
        self.acknowledged = 0
        self.done_untold = 0
        self.not_done = 0

    def new_name(self):
        self.count += 1
        return f"v{self.count}"

    def there(self):
        return [name for name, date in self.dates.items() if date is not None and name not in self.open]

    def of_late(self):
        return {*self.there(), *self.open, *self.gone[-500:]}


def described(port, process, names):
    """Returns the date of each vault, or None where it isn't there."""
    found = {}
    names = list(names)
    for first in range(0, len(names), KEPT):
        with connected(port, process) as it:
            replies = Replies(it)
            some = names[first : first + KEPT]
            for name in some:
                it.sendall(signed("GET", path_of(name)))
                status, body = replies.next()
                assert status in (200, 404), (status, body)
                found[name] = json.loads(body)["CreationDate"] if status == 200 else None
    return found


def check(told, found):
    """Compares what is found with what was told."""
    lost = []
    for name, date in found.items():
        if name in told.open:
            was = told.dates.get(name)
            changed = (was is None) != (date is None)
            told.done_untold += changed
            told.not_done += not changed
            told.dates[name] = date
        elif (told.dates[name] is None) != (date is None) or told.dates[name] not in (None, "made", date):
            lost.append((name, told.dates[name], date))
        else:
            told.dates[name] = date
    told.open.clear()
    return lost


def asked(told):
    """Returns a request to make a new vault or to delete one that is there, and how it changes what is told."""
    there = told.there()
    if there and (len(there) >= MOST_VAULTS or random.random() < 0.4):
        name = random.choice(there)
        told.open.add(name)
        return "DELETE", name, None
    name = told.new_name()
    told.dates[name] = None
    told.open.add(name)
    return "PUT", name, "made"


def ask(told, port, process, at_once):
    """Asks until the connection ends, so many requests at once."""
    with connected(port, process) as it:
        replies = Replies(it)
        for _ in range(KEPT // at_once):
            batch = [asked(told) for _ in range(at_once)]
            it.sendall(b"".join(signed(method, path_of(name)) for method, name, _ in batch))
            for method, name, after in batch:
                reply = replies.next()
                if reply is None and not replies.kept:
                    return
                # a first byte of the reply is enough
                told.open.discard(name)
                told.dates[name] = after
                told.gone += [name] if after is None else []
                told.acknowledged += 1
                if reply is None:
                    return
                assert reply[0] == {"PUT": 201, "DELETE": 204}[method], reply


def round_of(told, folder, keys, number):
    port = free_port()
    process = serving(folder, keys, port, *(["--new"] if number == 0 else []))
    try:
        # it listens only once the store is there
        connected(port, process).close()
        lost = check(told, described(port, process, told.of_late()))
        if lost:
            raise SystemExit(f"round {number}: lost {lost}")
        killer = threading.Timer(random.random() * LONGEST_ROUND, lambda: os.kill(process.pid, signal.SIGKILL))
        killer.start()
        while process.poll() is None:
            try:
                ask(told, port, process, random.choice([1, 1, 5]))
            except (ConnectionError, SystemExit):
                break
        killer.join()
        assert process.wait() == -signal.SIGKILL, process.returncode
    finally:
        process.kill()
        process.wait()
        process.stdout.close()


def record(kind, count):
    account = KEYS[0].encode()
    payload = bytes([kind]) + account + struct.pack(">Q", 1337905493) + b"\x01v"
    return b"\x01" + struct.pack(">I", len(payload)) + payload


def write_journal(folder, records):
    """A vault made and deleted, again and again."""
    pair = record(2, 0) + record(3, 0)
    with open(f"{folder}/lead", "wb") as it:
        it.write(b"\0")
    with open(f"{folder}/left", "wb") as it:
        it.write(b"glacier journal1" + pair * (records // 2) + b"\0")
    for name in ("right", "blobs"):
        open(f"{folder}/{name}", "wb").close()


def opening(folder, keys, records):
    """Returns how long it takes until the program listens, the least of five times."""
    write_journal(folder, records)
    times = []
    for _ in range(5):
        port = free_port()
        start = time.monotonic()
        process = serving(folder, keys, port)
        with connected(port, process):
            times.append(time.monotonic() - start)
        process.kill()
        process.wait()
        process.stdout.close()
    return min(times)


def main():
    rounds = int(sys.argv[1]) if len(sys.argv) > 1 else 500
    seed = int(sys.argv[2]) if len(sys.argv) > 2 else random.randrange(1 << 32)
    random.seed(seed)
    build()
    told = Told()
    with tempfile.TemporaryDirectory() as room:
        keys = f"{room}/keys"
        write_keys(keys)
        folder = f"{room}/data"
        os.mkdir(folder)
        for number in range(rounds):
            round_of(told, folder, keys, number)
        port = free_port()
        process = serving(folder, keys, port)
        lost = check(told, described(port, process, told.dates))
        process.kill()
        process.wait()
        if lost:
            raise SystemExit(f"at the end: lost {lost}")
        length = os.path.getsize(f"{folder}/left")
        print(f"seed {seed}: {rounds} rounds, {told.acknowledged:,} requests acknowledged and none lost;")
        print(f"{told.done_untold} without a byte of a reply were done, {told.not_done} weren't. ", end="")
        print(f"{len(told.there())} vaults, a journal of {length:,} bytes.")
        print("\n| Records | Journal, bytes | Opening, ms | Beyond an empty one, ns a byte |\n|---|---|---|---|")
        empty = opening(folder, keys, 0)
        for records in (0, 20_000, 40_000, 80_000, 160_000, 320_000, 640_000):
            taken = opening(folder, keys, records)
            size = 17 + 28 * records
            a_byte = f"{(taken - empty) / size * 1e9:.1f}" if records else ""
            print(f"| {records:,} | {size:,} | {taken * 1e3:.1f} | {a_byte} |", flush=True)


main()
