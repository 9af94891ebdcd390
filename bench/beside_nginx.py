#!/usr/bin/env python3
"""Measures `glacier serve` beside nginx in one run, on the loopback network.

    bench/beside_nginx.py [ROUNDS]

It needs nginx, and strace for the last lines. Both servers run one process that answers; GLACIER names another program than
./glacier, and BEFORE has words to run each server under. A request for the description of a vault isn't signed: the reply is
its refusal, and nginx answers with a fixed text of the same length. The servers take turns, one after the other in each of so
many rounds (200 where no number is given), of a hundred requests each: on one kept connection, and on a connection for each
request. It prints the median over the rounds, and the middle half, of a turn's median wall time and of its processor time of
the server for a request (user and system), and how glacier's stand to nginx's in the same round. The last lines have the
system calls of a request, of both.
"""

import os
import signal
import subprocess
import sys
import tempfile
import time

from client import BEFORE, build, connected, free_port, middle, serving, turn_of, write_keys

PATH = "/-/vaults/bench"
FIELDS = ["-H", "x-amz-glacier-version: 2012-06-01"]


def asked(port, process):
    """Returns the body of the reply to one request, as soon as the server listens."""
    with connected(port, process) as it:
        it.sendall(
            f"GET {PATH} HTTP/1.1\r\nHost: h\r\n{FIELDS[1]}\r\nConnection: close\r\n\r\n".encode()
        )
        text = b""
        while more := it.recv(65536):
            text += more
    return text.partition(b"\r\n\r\n")[2]


def glacier(folder, port):
    write_keys(f"{folder}/keys")
    os.mkdir(f"{folder}/data")
    process = serving(f"{folder}/data", f"{folder}/keys", port, "--new")
    return process, process.pid


def nginx(folder, port, body):
    with open(f"{folder}/nginx.conf", "w", encoding="ascii") as it:
        it.write(
            f"daemon off; worker_processes 1; pid {folder}/pid; error_log {folder}/error;\n"
            "events { worker_connections 1024; }\n"
            f"http {{ access_log off; keepalive_requests 1000; server {{ listen 127.0.0.1:{port};\n"
            f"location / {{ default_type application/json; return 403 '{body.decode()}'; }} }} }}\n"
        )
    process = subprocess.Popen([*BEFORE, "nginx", "-c", f"{folder}/nginx.conf"], stdout=subprocess.PIPE)
    asked(port, process)
    workers = subprocess.run(["pgrep", "-P", str(process.pid)], capture_output=True, text=True, check=True)
    return process, int(workers.stdout.split()[0])


def calls_of_a_request(pid, port, request):
    """Returns how many system calls the server makes for a request."""
    with tempfile.NamedTemporaryFile() as log:
        tracer = subprocess.Popen(["strace", "-c", "-f", "-p", str(pid), "-o", log.name], stderr=subprocess.DEVNULL)
        time.sleep(1)
        turn_of(pid, port, request, 500)
        tracer.send_signal(signal.SIGINT)
        tracer.wait()
        with open(log.name, encoding="ascii") as text:
            total = next(line for line in text if line.rstrip().endswith("total"))
    return int(total.split()[3]) / 500


def main():
    rounds = int(sys.argv[1]) if len(sys.argv) > 1 else 200
    build()
    with tempfile.TemporaryDirectory() as folder:
        ours, theirs = free_port(), free_port()
        server, pid = glacier(folder, ours)
        body = asked(ours, server)
        other, worker = nginx(folder, theirs, body)
        places = ((pid, ours), (worker, theirs))
        try:
            print("| Microseconds a request | Server | Wall time | Processor time |\n|---|---|---|---|")
            kinds = {}
            for name, more in (("one kept connection", ""), ("a connection each", "Connection: close\r\n")):
                kinds[name] = f"GET {PATH} HTTP/1.1\r\nHost: h\r\n{FIELDS[1]}\r\n{more}\r\n".encode()
                turns = [[], []]
                for number in range(rounds):
                    for place in (0, 1) if number % 2 == 0 else (1, 0):
                        turns[place].append(turn_of(*places[place], kinds[name]))
                for label, taken in zip(("glacier", "nginx"), turns):
                    print(f"| {name} | {label} | {' | '.join(middle(it) for it in zip(*taken))} |")
                ratios = [[one[kind] / other[kind] for one, other in zip(*turns)] for kind in (0, 1)]
                print(f"| {name} | glacier by nginx | {' | '.join(middle(it, 2) for it in ratios)} |", flush=True)
            print(f"\nload {os.getloadavg()[0]:.1f}\n\n| System calls a request | glacier | nginx |\n|---|---|---|")
            for name, request in kinds.items():
                calls = (f"{calls_of_a_request(*place, request):.2f}" for place in places)
                print(f"| {name} | {' | '.join(calls)} |")
        finally:
            for process in (server, other):
                process.terminate()
                process.wait()


if __name__ == "__main__":
    main()
