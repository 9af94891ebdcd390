#!/usr/bin/env python3
"""Shows that no client of `glacier serve` waits for another that is slow or silent.

    bench/clients.py [SECONDS]

It starts the program at a free port of the loopback network (GLACIER names another program than ./glacier, and BEFORE has words
to run it under, such as `chrt -f 50`) and prints three tables. The first has how long a client waits for its reply behind others that don't behave. The second has what comes of
many clients that do: six of boto3 in turn, where boto3 is there, and 1,000 connections with a request every 100 ms each.
The third is a mixed hostile load of so many seconds (60 where no number is given) beside a client that asks every 20 ms, and
what it leaves: descriptors, memory, and the process. For each wait above 100 ms it says for how much of it a body that comes
slowly was in hand; an echo that is asked beside it shows what the machine is late with. Each run is bounded, and what it starts
it ends.

A request for the description of a vault isn't signed here, but by boto3: its reply is the refusal, which is compared.
"""

import collections
import multiprocessing
import os
import random
import resource
import selectors
import socket
import struct
import subprocess
import sys
import tempfile
import threading
import time

from client import BEFORE, KEYS, Replies, build, connected, free_port, processor_seconds, serving, write_keys


def request(method="GET", more=""):
    return f"{method} /-/vaults/bench HTTP/1.1\r\nHost: h\r\nx-amz-glacier-version: 2012-06-01\r\n{more}\r\n".encode()


GET = request()
GET_AND_CLOSE = request(more="Connection: close\r\n")
BODY = request("PUT", "Content-Length: 8589934592\r\n")


class Server:
    """The program at a free port, with at most so many descriptors where a number is given."""

    def __init__(self, folder, descriptors=None):
        self.port = free_port()
        folder = tempfile.mkdtemp(dir=folder)
        write_keys(f"{folder}/keys")
        self.process = serving(folder, f"{folder}/keys", self.port, "--new", descriptors=descriptors)
        connected(self.port, self.process).close()

    def connected(self, room=None):
        it = socket.socket()
        if room:
            it.setsockopt(socket.SOL_SOCKET, socket.SO_RCVBUF, room)
        it.settimeout(60)
        it.connect(("127.0.0.1", self.port))
        it.setsockopt(socket.IPPROTO_TCP, socket.TCP_NODELAY, 1)
        return it

    def waited(self):
        """Returns how long a client on a new connection waits for its reply."""
        start = time.monotonic()
        with self.connected() as it:
            it.sendall(GET_AND_CLOSE)
            text = everything(it)
        assert text.startswith(b"HTTP/1.1 4"), text
        return time.monotonic() - start

    def descriptors(self):
        return len(os.listdir(f"/proc/{self.process.pid}/fd"))

    def resident_kib(self):
        with open(f"/proc/{self.process.pid}/status", encoding="ascii") as it:
            return next(int(line.split()[1]) for line in it if line.startswith("VmRSS:"))

    def is_alive(self):
        return self.process.poll() is None

    def stop(self):
        self.process.terminate()
        return self.process.wait()


def everything(connection):
    text = b""
    while True:
        more = connection.recv(65536)
        if not more:
            return text
        text += more


def reset(connection):
    connection.setsockopt(socket.SOL_SOCKET, socket.SO_LINGER, struct.pack("ii", 1, 0))
    connection.close()


def fed(connection, text, seconds, stop):
    """Sends a byte, or the next of some texts, every so many seconds."""
    try:
        for part in text:
            connection.sendall(part if isinstance(part, bytes) else bytes([part]))
            if stop.wait(seconds):
                return
    except OSError:
        pass


def row(*cells):
    print("| " + " | ".join(cells) + " |", flush=True)


def most_of(server, count=20):
    waits = [server.waited() for _ in range(count)]
    return f"{1000 * waits[0]:.1f} | {1000 * max(waits):.1f}"


def behind_silent(server, count):
    others = [server.connected() for _ in range(count)]
    row(f"{count} silent connections", most_of(server))
    for it in others:
        it.close()


def behind_fed(server, name, first, rest):
    stop = threading.Event()
    with server.connected() as it:
        it.sendall(first)
        thread = threading.Thread(target=fed, args=(it, rest, 4, stop))
        thread.start()
        time.sleep(0.5)
        row(name, most_of(server))
        stop.set()
        thread.join()


def behind_enough(server, seconds=12):
    """A body at the least rate that may keep others waiting: they wait until its client leaves, which is so many seconds later."""
    stop = threading.Event()
    with server.connected() as it:
        it.sendall(BODY)
        thread = threading.Thread(target=fed, args=(it, [bytes(14000)] * 60, 0.9, stop))
        thread.start()
        time.sleep(0.5)

        def leave():
            stop.set()
            thread.join()
            reset(it)

        timer = threading.Timer(seconds, leave)
        timer.start()
        row(f"a body of 14,000 bytes each 0.9 s, whose client leaves after {seconds} s", most_of(server))
        timer.join()


def behind_unread(server):
    """A client that asks 20,000 times, in a window of 2 KiB, and reads nothing."""
    it = server.connected(2048)
    it.settimeout(0.5)
    try:
        it.sendall(GET * 20000)
    except OSError:
        pass
    row("a client that reads no reply", most_of(server))
    reset(it)


def behind_kept(server):
    with server.connected() as it:
        replies = Replies(it)
        it.sendall(GET)
        first = replies.whole()
        row("a kept connection that is idle", most_of(server))
        it.sendall(GET)
        assert None not in (first, replies.whole())


def behind_bodies(server):
    """Bodies that come at once, of sizes about those of the buffers: each has its reply before the next client's."""
    for size in (1, 700, 1000, 5000, 16000, 17000, 100000, 1 << 20):
        with server.connected() as it:
            start, replies = time.monotonic(), Replies(it)
            it.sendall(request("PUT", f"Content-Length: {size}\r\n") + bytes(size))
            first = replies.whole()
            it.sendall(GET)
            assert None not in (first, replies.whole())
            assert time.monotonic() - start < 4, size
    row("bodies of 1 byte to 1 MiB that come at once", most_of(server))


def few_descriptors(folder):
    server = Server(folder, 64)
    others = [server.connected() for _ in range(120)]
    waits = most_of(server)
    before, start = processor_seconds(server.process.pid), time.monotonic()
    time.sleep(3)
    spent = (processor_seconds(server.process.pid) - before) / (time.monotonic() - start)
    row(f"120 silent connections, 64 descriptors (idle: {100 * spent:.1f} % of a processor)", waits)
    for it in others:
        it.close()
    assert server.is_alive()
    server.stop()


def boto_clients(server):
    try:
        import boto3
    except ImportError:
        row("boto3 isn't there", "", "")
        return

    def client():
        return boto3.session.Session().client(
            "glacier", endpoint_url=f"http://127.0.0.1:{server.port}", region_name="us-east-1",
            aws_access_key_id=KEYS[1], aws_secret_access_key=KEYS[2])

    clients = [client() for _ in range(6)]
    for it in clients:
        it.create_vault(vaultName="bench")
    for count in (1, 6):
        start, most = time.monotonic(), 0.0
        for number in range(1000):
            before = time.monotonic()
            clients[number % count].describe_vault(vaultName="bench")
            most = max(most, time.monotonic() - before)
        spent = time.monotonic() - start
        row(f"{count} boto3 client{'s' if count > 1 else ''}, 1,000 requests in turn", f"{spent:.2f}", f"{1000 * most:.1f}")


def asked_often(port, start, seconds, count, gap):
    """Asks on so many kept connections, on each every so many seconds. It returns how long after it was due each reply came."""
    selector, due, waits = selectors.DefaultSelector(), collections.deque(), []
    for number in range(count):
        it = socket.create_connection(("127.0.0.1", port))
        it.setsockopt(socket.IPPROTO_TCP, socket.TCP_NODELAY, 1)
        it.setblocking(False)
        selector.register(it, selectors.EVENT_READ)
        due.append((start + gap * number / count, it))
    sent = {}
    while time.monotonic() < start + seconds:
        while due[0][0] <= time.monotonic():
            moment, it = due.popleft()
            due.append((moment + gap, it))
            if it not in sent:
                it.send(GET)
                sent[it] = collections.deque()
            sent[it].append(moment)
        for key, _ in selector.select(max(0, due[0][0] - time.monotonic())):
            it = key.fileobj
            assert it.recv(65536), "a connection was closed"
            waits.append(time.monotonic() - sent[it].popleft())
            if sent[it]:
                it.send(GET)
            else:
                del sent[it]
    for _, it in due:
        it.close()
    return waits


def thousand(server, lead, seconds=10, count=1000, gap=0.1, processes=4):
    """So many kept connections, each with a request every 100 ms, of several processes, so that the client isn't what is late.

    The first request is due so many seconds after they begin to connect. A wait counts from when a request is due, so with a short lead it
    holds what connecting takes: where the listener's queue has no room, the system tries again after a second or more.
    """
    job = (server.port, time.monotonic() + lead, seconds, count // processes, gap)
    with multiprocessing.get_context("fork").Pool(processes) as pool:
        waits = sorted(it for part in pool.starmap(asked_often, [job] * processes) for it in part)
    row(f"{count} connections, due {lead} s after they begin to connect, {len(waits):,} replies in {seconds} s: median, p99 and most, ms", *(
        f"{1000 * it:.1f}" for it in (waits[len(waits) // 2], waits[len(waits) * 99 // 100], waits[-1])))


class Spans:
    """When something was so, from moment to moment."""

    def __init__(self):
        self.spans = []

    def add(self, start):
        self.spans.append((start, time.monotonic()))

    def within(self, start, end):
        """For how long it was so between two moments."""
        covered, until = 0.0, start
        for first, last in sorted(self.spans):
            first, last = max(first, until), min(last, end)
            if first < last:
                covered, until = covered + last - first, last
        return covered


def hostile(server, until, seed):
    """One connection after another, of a kind that is drawn."""
    draw = random.Random(seed)
    while time.monotonic() < until:
        try:
            it = server.connected(2048 if draw.random() < 0.2 else None)
        except OSError:
            continue
        try:
            kind = draw.randrange(6)
            if kind == 0:
                fed(it, GET[:draw.randrange(1, 40)], 0.2, threading.Event())
            elif kind == 1:
                it.sendall(GET * draw.randrange(1, 300))
                reset(it)
            elif kind == 2:
                it.sendall(GET + GET[:40])
                it.shutdown(socket.SHUT_WR)
                everything(it)
            elif kind == 3:
                it.sendall(draw.randbytes(draw.randrange(1, 3000)))
                everything(it)
            elif kind == 4:
                it.settimeout(1)
                it.sendall(GET * 1000)
                time.sleep(1)
            else:
                time.sleep(draw.random() * 3)
        except OSError:
            pass
        it.close()
        time.sleep(0.02)


def is_closed(connection, seconds):
    """Whether the server closes a connection in so many seconds, without a reply."""
    connection.settimeout(seconds)
    try:
        return connection.recv(1) == b""
    except TimeoutError:
        return False


def slow_bodies(server, until, seed, in_hand):
    """A body of 8 GiB, of which a byte comes each second, once in 15 s: the others wait at most 5 s for it."""
    draw = random.Random(seed)
    while time.monotonic() < until:
        start = time.monotonic()
        try:
            with server.connected() as it:
                it.sendall(BODY + bytes(draw.randrange(100000)))
                for _ in range(8):
                    it.sendall(bytes(1))
                    if is_closed(it, 1):
                        break
        except OSError:
            pass
        in_hand.add(start)
        time.sleep(7)


def load(server, until, spans):
    """The whole hostile load. It puts out when a body was in hand."""
    in_hand = Spans()
    threads = [threading.Thread(target=hostile, args=(server, until, seed)) for seed in range(23)]
    threads.append(threading.Thread(target=slow_bodies, args=(server, until, 23, in_hand)))
    for it in threads:
        it.start()
    for it in threads:
        it.join()
    spans.put(in_hand.spans)


ECHO = """
import socket
it = socket.create_server(("127.0.0.1", 0))
print(it.getsockname()[1], flush=True)
while True:
    with it.accept()[0] as one:
        one.sendall(one.recv(64))
"""


def control(until, spans):
    """Asks an echo beside the server, in the same way and as often: what it waits for, the machine is late with."""
    with subprocess.Popen([*BEFORE, sys.executable, "-c", ECHO], stdout=subprocess.PIPE) as echo:
        port, late = int(echo.stdout.readline()), Spans()
        while time.monotonic() < until:
            start = time.monotonic()
            with socket.create_connection(("127.0.0.1", port)) as it:
                it.sendall(b"x")
                it.recv(1)
            if time.monotonic() - start > 0.1:
                late.add(start)
            time.sleep(0.02)
        echo.terminate()
    spans.put(late.spans)


def mixed(server, seconds):
    server.waited()
    time.sleep(2)
    before = server.descriptors(), server.resident_kib()
    first = time.monotonic()
    until = first + seconds
    fork = multiprocessing.get_context("fork")
    bodies, late = fork.SimpleQueue(), fork.SimpleQueue()
    others = [fork.Process(target=load, args=(server, until, bodies)), fork.Process(target=control, args=(until, late))]
    for it in others:
        it.start()
    asked = Spans()
    while time.monotonic() < until:
        start = time.monotonic()
        server.waited()
        asked.add(start)
        time.sleep(0.02)
    in_hand, machine = Spans(), Spans()
    in_hand.spans, machine.spans = bodies.get(), late.get()
    for it in others:
        it.join()
    time.sleep(3)
    left = []
    for start, end in asked.spans:
        if end - start > 0.1:
            body = in_hand.within(start, end)
            left.append(end - start - body)
            row(f"at {start - first:.1f} s: {1000 * (end - start):.0f} ms", f"a body in hand for {1000 * body:.0f} ms, left {1000 * left[-1]:.0f}")
    waits = sorted(end - start for start, end in asked.spans)
    row("requests of the client that behaves", f"{len(waits):,}")
    row("its waits: median, p99, most, ms", ", ".join(
        f"{1000 * it:.1f}" for it in (waits[len(waits) // 2], waits[len(waits) * 99 // 100], waits[-1])))
    row("waits above 100 ms, and those of which more than 100 ms are left without the body", f"{len(left)}, {sum(it > 0.1 for it in left)}")
    row("the most that is left of one, ms", f"{1000 * max(left, default=0):.0f}")
    row("waits above 100 ms for the echo beside it, and the longest, ms",
        f"{len(machine.spans)}, {1000 * max((last - start for start, last in machine.spans), default=0):.0f}")
    row("descriptors before and after", f"{before[0]}, {server.descriptors()}")
    row("resident before and after, KiB", f"{before[1]:,}, {server.resident_kib():,}")
    row("the process is alive", str(server.is_alive()))


def main():
    seconds = int(sys.argv[1]) if len(sys.argv) > 1 else 60
    resource.setrlimit(resource.RLIMIT_NOFILE, (4096, resource.getrlimit(resource.RLIMIT_NOFILE)[1]))
    build()
    with tempfile.TemporaryDirectory() as folder:
        server = Server(folder)
        try:
            row("Behind", "Wait of the next client, ms", "Most of 20, ms")
            row("---", "---", "---")
            row("nobody", most_of(server))
            behind_silent(server, 1)
            behind_fed(server, "a client that sends a byte of its head every 4 s", b"", GET[:10])
            behind_silent(server, 999)
            behind_kept(server)
            behind_bodies(server)
            behind_fed(server, "a client that sends a byte of a body every 4 s", BODY, bytes(10))
            behind_enough(server)
            behind_unread(server)
            few_descriptors(folder)
            print()
            row("Clients that behave", "s", "Most, ms")
            row("---", "---", "---")
            boto_clients(server)
            thousand(server, 2)
            thousand(server, 6)
            print()
            row(f"A mixed hostile load of {seconds} s, 24 at once", "")
            row("---", "---")
            mixed(server, seconds)
        finally:
            server.stop()


main()
