"""What the scripts under bench/ share: signed requests, connections to a server that is started, and its replies.

GLACIER in the environment names another program than the one that ./glacier builds, and BEFORE has words to run each server
under, such as `chrt -f 50`.
"""
import hashlib
import hmac
import os
import resource
import socket
import statistics
import subprocess
import time

ROOT = os.path.dirname(os.path.dirname(os.path.abspath(__file__)))
PROGRAM = os.environ.get("GLACIER", f"{ROOT}/crates/glacier_cli/out/glacier_cli")
BEFORE = os.environ.get("BEFORE", "").split()
KEYS = ("111122223333", "AKIDEXAMPLE", "wJalrXUtnFEMI/K7MDENG+bPxRfiCYEXAMPLEKEY")
KEPT = 1000
EMPTY = hashlib.sha256(b"").hexdigest()


def signed(method, path, more="", headers=None, payload=EMPTY):
    """Returns a request's head, signed by Signature Version 4 at this moment, with further fields that aren't.

    The headers are signed too, their names in lower case; payload is the SHA-256 of the body, in digits.
    """
    moment = time.strftime("%Y%m%dT%H%M%SZ", time.gmtime())
    fields = {"host": "h", "x-amz-date": moment, "x-amz-glacier-version": "2012-06-01", **(headers or {})}
    fields = dict(sorted(fields.items()))
    names = ";".join(fields)
    lines = "".join(f"{name}:{value}\n" for name, value in fields.items())
    canonical = f"{method}\n{path}\n\n{lines}\n{names}\n{payload}"
    scope = f"{moment[:8]}/us-east-1/glacier/aws4_request"
    key = ("AWS4" + KEYS[2]).encode()
    for part in scope.split("/"):
        key = hmac.new(key, part.encode(), hashlib.sha256).digest()
    text = f"AWS4-HMAC-SHA256\n{moment}\n{scope}\n{hashlib.sha256(canonical.encode()).hexdigest()}"
    signature = hmac.new(key, text.encode(), hashlib.sha256).hexdigest()
    head = "".join(f"{name}: {value}\r\n" for name, value in fields.items())
    credential = f"Credential={KEYS[1]}/{scope}, SignedHeaders={names}, Signature={signature}"
    return f"{method} {path} HTTP/1.1\r\n{head}Authorization: AWS4-HMAC-SHA256 {credential}\r\n{more}\r\n".encode()


def build():
    """Builds the program, before anything is signed: that may take longer than a signature is good for."""
    if "GLACIER" not in os.environ:
        subprocess.run([f"{ROOT}/glacier", "hash", "/dev/null"], stdout=subprocess.DEVNULL, check=True)


def write_keys(name, quota=64):
    with open(name, "w", encoding="ascii") as it:
        it.write(" ".join(KEYS) + f" {quota}\n")


def processor_seconds(process):
    """The processor time of a process so far, user and system, which the system counts in nanoseconds."""
    with open(f"/proc/{process}/schedstat", encoding="ascii") as it:
        return int(it.read().split()[0]) / 1e9


def most_resident(process):
    """The most memory that a process has had resident so far, in MiB."""
    with open(f"/proc/{process}/status", encoding="ascii") as it:
        return next(int(line.split()[1]) for line in it if line.startswith("VmHWM:")) / 1024


def free_port():
    with socket.socket() as it:
        it.bind(("127.0.0.1", 0))
        return it.getsockname()[1]


def serving(folder, keys, port, *more, program=PROGRAM, descriptors=None):
    """Starts the program that was built, or another one, to serve what the folder holds, with at most so many descriptors where a
    number is given."""

    def limit():
        if descriptors:
            resource.setrlimit(resource.RLIMIT_NOFILE, (descriptors, descriptors))

    words = [*BEFORE, program, "serve", folder, keys, "--listen", f"127.0.0.1:{port}", *more]
    return subprocess.Popen(words, stdout=subprocess.PIPE, preexec_fn=limit)


def connected(port, process=None, patience=60.0):
    """Connects as soon as the server listens."""
    until = time.monotonic() + patience
    while True:
        try:
            it = socket.create_connection(("127.0.0.1", port), timeout=30)
            it.setsockopt(socket.IPPROTO_TCP, socket.TCP_NODELAY, 1)
            return it
        except ConnectionRefusedError:
            if process is not None and process.poll() is not None:
                raise SystemExit(f"the server ended with {process.returncode}: {process.stdout.read().decode()}")
            if time.monotonic() > until:
                raise
            time.sleep(0.0005)


def turn_of(pid, port, request, count=100):
    """Asks so often, on one connection, or on one each where the request asks to close. It returns the median of how long the
    replies took and the server's processor time for a request, in microseconds. Each reply comes whole in one piece."""
    closes, taken, it = b"Connection: close" in request, [], None
    before = processor_seconds(pid)
    for _ in range(count):
        start = time.perf_counter()
        if it is None:
            it = socket.create_connection(("127.0.0.1", port))
            it.setsockopt(socket.IPPROTO_TCP, socket.TCP_NODELAY, 1)
        it.sendall(request)
        reply = it.recv(65536)
        taken.append(time.perf_counter() - start)
        assert reply.startswith(b"HTTP/1.1 "), reply
        if closes:
            assert it.recv(65536) == b""
            it.close()
            it = None
    spent = processor_seconds(pid) - before
    if it is not None:
        it.close()
    return 1e6 * statistics.median(taken), 1e6 * spent / count


def middle(values, digits=1):
    """The median, and the middle half."""
    low, middle, high = statistics.quantiles(values, n=4)
    return f"{middle:.{digits}f} ({low:.{digits}f} to {high:.{digits}f})"


class Replies:
    """The replies on a connection, in order."""

    def __init__(self, connection):
        self.connection = connection
        self.kept = b""

    def more(self):
        """Takes more bytes. It answers whether any came before the connection ended."""
        try:
            more = self.connection.recv(65536)
        except ConnectionError:
            return False
        self.kept += more
        return more != b""

    def whole(self):
        """Returns the head and the body of the next reply, or None where the connection ends before its end."""
        while b"\r\n\r\n" not in self.kept:
            if not self.more():
                return None
        head, _, rest = self.kept.partition(b"\r\n\r\n")
        lengths = [int(it.split(b":")[1]) for it in head.split(b"\r\n") if it.lower().startswith(b"content-length:")]
        length = lengths[0] if lengths else 0
        pieces, count = [rest], len(rest)
        while count < length:
            try:
                pieces.append(self.connection.recv(min(1 << 20, length - count)))
            except ConnectionError:
                return None
            if not pieces[-1]:
                return None
            count += len(pieces[-1])
        body = b"".join(pieces)
        self.kept = body[length:]
        return head, body[:length]

    def next(self):
        """Returns the status and the body of the next reply, or None as `whole` does."""
        reply = self.whole()
        return None if reply is None else (int(reply[0].split(b" ")[1]), reply[1])
