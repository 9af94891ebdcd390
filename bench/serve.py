#!/usr/bin/env python3
"""Measures `glacier serve` on this machine, over the loopback network.

    bench/serve.py [REQUESTS]

It starts the program at a free port (GLACIER names another program than ./glacier, and BEFORE has words to run it under),
makes a vault, and asks for it so many times (20,000 where no number is given): on connections that are kept for 1,000
requests, which is the most that one may have, and on a connection for each request. Each request is signed, once for the whole
run, so a run may take no longer than 15 minutes. It prints requests a second, and the processor time that the server took for
a request (user and system). Then clients come that don't behave, and each time it is seen that the next one
is served. Last a client connects and says nothing, and the time is taken until a second client has its reply; the same for a
client that sends one byte a second of a head of some bytes.

Each reply is compared with what the first one was, its date aside.
"""

import socket
import struct
import sys
import tempfile
import threading
import time

from client import KEPT, Replies, build, connected, free_port, processor_seconds, serving, signed, write_keys

PATH = "/-/vaults/bench"

build()
PUT = signed("PUT", PATH)
GET = signed("GET", PATH)
GET_AND_CLOSE = signed("GET", PATH, "Connection: close\r\n")


def compared(replies):
    """Returns the next reply's head without what isn't compared, and its body."""
    head, body = replies.whole()
    return without_date(head), body


def without_date(head):
    return [it for it in head.split(b"\r\n") if not it.lower().startswith((b"date:", b"connection:"))]


def resident_mib(process):
    with open(f"/proc/{process.pid}/status") as it:
        return next(int(line.split()[1]) for line in it if line.startswith("VmRSS:")) / 1024


def on_kept(port, count, want):
    done = 0
    while done < count:
        with connected(port) as it:
            replies = Replies(it)
            for _ in range(min(KEPT, count - done)):
                it.sendall(GET)
                reply = compared(replies)
                assert reply == want, reply
                done += 1


def on_one_each(port, count, want):
    for _ in range(count):
        with connected(port) as it:
            it.sendall(GET_AND_CLOSE)
            reply = compared(Replies(it))
            assert reply == want, reply


def measured(process, name, run, port, count, want):
    before, start = processor_seconds(process.pid), time.monotonic()
    run(port, count, want)
    wall, spent = time.monotonic() - start, processor_seconds(process.pid) - before
    print(f"| {name} | {count:,} | {count / wall:,.0f} | {spent / count * 1e6:.0f} |", flush=True)


def behind(port, name, client, want):
    """Says how long a client waits that comes behind another."""
    with connected(port) as first:
        stop = threading.Event()
        thread = threading.Thread(target=client, args=(first, stop))
        thread.start()
        time.sleep(0.1)
        start = time.monotonic()
        with connected(port) as second:
            second.sendall(GET_AND_CLOSE)
            reply = compared(Replies(second))
        assert reply == want, reply
        print(f"| {name} | {time.monotonic() - start:.2f} |", flush=True)
        stop.set()
        thread.join()


def refused(port, want):
    """A head that is too long, and a MiB behind it: the refusal comes whole, before the connection is reset."""
    with connected(port) as it:
        it.sendall(b"GET /" + b"a" * 16384)
        it.sendall(b"a" * (1 << 20))
        head, body = compared(Replies(it))
        assert head[0] == b"HTTP/1.1 400 Bad Request" and b"too long" in body, (head, body)
        it.shutdown(socket.SHUT_WR)
        assert it.recv(1) == b""


def half_closed(port, want):
    """A request, and then no more: its reply comes."""
    with connected(port) as it:
        it.sendall(GET)
        it.shutdown(socket.SHUT_WR)
        reply = compared(Replies(it))
        assert reply == want, reply
        assert it.recv(1) == b""


def cut_off(port, want):
    """Half of a head, and then the end: no byte comes."""
    with connected(port) as it:
        it.sendall(GET[:40])
        it.shutdown(socket.SHUT_WR)
        assert it.recv(1) == b""


def reset(port, want):
    """A connection that is reset before its request is answered."""
    with connected(port) as it:
        it.setsockopt(socket.SOL_SOCKET, socket.SO_LINGER, struct.pack("ii", 1, 0))
        it.sendall(GET * 500)


def behaves(port, want):
    for client in (refused, half_closed, cut_off, reset, reset, cut_off):
        client(port, want)
        on_one_each(port, 1, want)


def silent(connection, stop):
    stop.wait()


def slow(connection, stop):
    try:
        for byte in GET[:12]:
            connection.sendall(bytes([byte]))
            if stop.wait(1):
                return
        connection.shutdown(socket.SHUT_WR)
    except OSError:
        pass


def main():
    count = int(sys.argv[1]) if len(sys.argv) > 1 else 20000
    port = free_port()
    with tempfile.TemporaryDirectory() as folder:
        write_keys(f"{folder}/keys")
        process = serving(folder, f"{folder}/keys", port, "--new")
        try:
            with connected(port, process) as it:
                it.sendall(PUT + GET)
                replies = Replies(it)
                compared(replies)
                want = compared(replies)
            print("| Connections | Requests | Requests a second | Processor time a request, microseconds |")
            print("|---|---|---|---|")
            measured(process, "kept for 1,000 requests", on_kept, port, count, want)
            measured(process, "one for each request", on_one_each, port, count, want)
            behaves(port, want)
            print("\nEach client behind one that doesn't behave was served.")
            print("\n| Behind | Wait for a reply, s |\n|---|---|")
            behind(port, "a client that says nothing", silent, want)
            behind(port, "a client that sends a byte a second, twelve in all", slow, want)
            print(f"\nMemory: {resident_mib(process):.0f} MiB resident.")
        finally:
            process.terminate()
            process.wait()


main()
