#!/usr/bin/env python3
"""Measures what a signed GET of a vault costs in two programs, side by side.

    bench/get.py PROGRAM OTHER [ROUNDS]

Each is started once, with its own folder and a vault in it. Then they are asked in turns, one after the other in each of so
many rounds (300 where no number is given): a hundred times for the vault on one connection, by a request that was signed at the
start, so a run may take no longer than 15 minutes. For each program it prints the median over the rounds, and the middle half,
of a round's median wall time and of its processor time of the server for a request (user and system), and how the first
program's stand to the other's in the same round. BEFORE has words to run each server under.
"""

import os
import subprocess
import sys
import tempfile

from client import Replies, connected, free_port, middle, serving, signed, turn_of, write_keys

PATH = "/-/vaults/bench"


class Server:
    """A program that serves a folder of its own, with one vault."""

    def __init__(self, folder, program):
        self.port = free_port()
        os.mkdir(folder)
        write_keys(f"{folder}/keys")
        usage = subprocess.run([program], capture_output=True, text=True, check=False).stdout
        is_kept = ["--new"] if "--new" in usage else []
        self.process = serving(folder, f"{folder}/keys", self.port, *is_kept, program=program)
        with connected(self.port, self.process) as it:
            replies = Replies(it)
            for method, status in (("PUT", 201), ("GET", 200)):
                it.sendall(signed(method, PATH))
                assert replies.next()[0] == status


def main():
    programs = [os.path.abspath(it) for it in sys.argv[1:3]]
    rounds = int(sys.argv[3]) if len(sys.argv) > 3 else 300
    with tempfile.TemporaryDirectory() as folder:
        servers = [Server(f"{folder}/{place}", program) for place, program in enumerate(programs)]
        turns = [[], []]
        try:
            request = signed("GET", PATH)
            for number in range(rounds):
                # who begins changes, so that neither has the better place
                for place in (0, 1) if number % 2 == 0 else (1, 0):
                    turns[place].append(turn_of(servers[place].process.pid, servers[place].port, request))
        finally:
            for it in servers:
                it.process.terminate()
                it.process.wait()
                it.process.stdout.close()
    print(f"load {os.getloadavg()[0]:.1f}\n\n| Microseconds a GET, median of {rounds} rounds (middle half) | Wall time | Processor time |\n|---|---|---|")
    for program, taken in zip(programs, turns):
        print(f"| {program} | {' | '.join(middle(it) for it in zip(*taken))} |")
    ratios = [[one[kind] / other[kind] for one, other in zip(*turns)] for kind in (0, 1)]
    print(f"| the first by the second, round by round | {' | '.join(middle(it, 3) for it in ratios)} |")


if __name__ == "__main__":
    main()
