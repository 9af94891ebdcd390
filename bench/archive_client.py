"""A client of archives, for the scripts under bench/: uploads, deletions, retrieval jobs and their outputs.

A body is bytes, or a file that is open; its digests are named in the head. An output is taken into memory, or read and thrown away.
"""
import hashlib
import json
import os
import time

from client import EMPTY, KEPT, Replies, connected, signed

MIB = 1 << 20


def leaves_of(pieces):
    """The SHA-256 of each MiB of the pieces, which are multiples of a MiB but for the last one."""
    return [hashlib.sha256(it[at : at + MIB]).digest() for it in pieces for at in range(0, len(it), MIB)]


def root_of(level):
    """The tree hash over leaves, in digits: pairs are hashed level by level, and one that is left over goes up as it is."""
    while len(level) > 1:
        level = [b"".join(level[at : at + 2]) for at in range(0, len(level), 2)]
        level = [it if len(it) == 32 else hashlib.sha256(it).digest() for it in level]
    return level[0].hex()


def tree_hash(data):
    """The tree hash of bytes, in digits."""
    return root_of(leaves_of([memoryview(data)]) or [hashlib.sha256(b"").digest()])


def file_digests(name):
    """The SHA-256 and the tree hash of a file that isn't empty."""
    whole, leaves = hashlib.sha256(), []
    with open(name, "rb") as it:
        while piece := it.read(16 * MIB):
            whole.update(piece)
            leaves += leaves_of([memoryview(piece)])
    return whole.hexdigest(), root_of(leaves)


class Lost(Exception):
    """The connection ended before a whole reply came."""


class Reply:
    """The status, the fields, their names in lower case, and the body of a reply."""

    def __init__(self, head, body):
        lines = head.decode().split("\r\n")
        self.status = int(lines[0].split(" ")[1])
        self.fields = {name.lower(): value.strip() for name, _, value in (it.partition(":") for it in lines[1:])}
        self.body = body

    def code(self):
        return json.loads(self.body)["code"]


class Client:
    """Asks one thing after another, on a connection that is made anew where it ended or had its thousand requests."""

    def __init__(self, port, process=None):
        self.port, self.process = port, process
        self.connection, self.count = None, 0

    def __enter__(self):
        return self

    def __exit__(self, *_):
        self.close()

    def close(self):
        if self.connection is not None:
            self.connection.close()
        self.connection, self.count = None, 0

    def send(self, head, body=b""):
        """Sends a head and a body. A server that refuses a body early may have ended its side: its reply is read all the same."""
        if self.connection is None:
            self.connection = connected(self.port, self.process)
            self.replies = Replies(self.connection)
        self.count += 1
        try:
            if isinstance(body, (bytes, memoryview)):
                self.connection.sendall(head + body if len(body) <= 65536 else head)
                if len(body) > 65536:
                    self.connection.sendall(body)
            else:
                self.connection.sendall(head)
                self.connection.sendfile(body)
        except ConnectionError:
            pass

    def received(self):
        reply = self.replies.whole()
        if reply is None:
            self.close()
            raise Lost
        reply = Reply(*reply)
        if reply.fields.get("connection") == "close" or self.count == KEPT:
            self.close()
        return reply

    def ask(self, method, path, headers=None, body=b"", length=None, payload=None):
        """Asks, and returns the reply. The body's SHA-256 is the payload's where none is given."""
        length = len(body) if length is None else length
        payload = payload or (hashlib.sha256(body).hexdigest() if body else EMPTY)
        self.send(signed(method, path, f"Content-Length: {length}\r\n", headers, payload), body)
        return self.received()

    def make_vault(self, vault):
        reply = self.ask("PUT", f"/-/vaults/{vault}")
        assert reply.status == 201, reply.body

    def described(self, vault):
        """How many archives the vault has, and their bytes together."""
        reply = self.ask("GET", f"/-/vaults/{vault}")
        assert reply.status == 200, reply.body
        body = json.loads(reply.body)
        return body["NumberOfArchives"], body["SizeInBytes"]

    def uploading(self, vault, body, digests=None, description=None, length=None):
        """The reply to an upload, of bytes or of an open file with its digests."""
        whole, tree = digests or (hashlib.sha256(body).hexdigest(), tree_hash(body))
        headers = {"x-amz-content-sha256": whole, "x-amz-sha256-tree-hash": tree}
        if description is not None:
            headers["x-amz-archive-description"] = description
        if length is None:
            length = len(body) if isinstance(body, (bytes, memoryview)) else os.fstat(body.fileno()).st_size
        return self.ask("POST", f"/-/vaults/{vault}/archives", headers, body, length, whole)

    def upload(self, vault, body, digests=None, description=None):
        """Uploads, and returns the archive's id."""
        reply = self.uploading(vault, body, digests, description)
        assert reply.status == 201, reply.body
        return reply.fields["x-amz-archive-id"]

    def delete(self, vault, archive):
        reply = self.ask("DELETE", f"/-/vaults/{vault}/archives/{archive}")
        assert reply.status == 204, reply.body

    def beginning(self, vault, archive, stretch=None):
        """The reply to the beginning of a retrieval, of the whole archive or of a stretch `FIRST-LAST`."""
        body = {"Type": "archive-retrieval", "ArchiveId": archive}
        if stretch is not None:
            body["RetrievalByteRange"] = stretch
        return self.ask("POST", f"/-/vaults/{vault}/jobs", None, json.dumps(body).encode())

    def begin(self, vault, archive, stretch=None):
        """Begins a retrieval, and returns the job's id."""
        reply = self.beginning(vault, archive, stretch)
        assert reply.status == 202, reply.body
        return reply.fields["x-amz-job-id"]

    def wait(self, vault, job, patience=60.0):
        """Waits until a job is done, and returns its description."""
        until = time.monotonic() + patience
        while True:
            reply = self.ask("GET", f"/-/vaults/{vault}/jobs/{job}")
            assert reply.status == 200, reply.body
            found = json.loads(reply.body)
            if found["Completed"]:
                return found
            assert time.monotonic() < until, found
            time.sleep(0.05)

    def output(self, vault, job, stretch=None):
        """The reply that has a job's output, or a stretch `FIRST-LAST` of it."""
        more = "" if stretch is None else f"Range: bytes={stretch}\r\n"
        self.send(signed("GET", f"/-/vaults/{vault}/jobs/{job}/output", more))
        return self.received()

    def drained(self, vault, job):
        """Takes a job's output and throws it away; returns how many bytes it had."""
        self.send(signed("GET", f"/-/vaults/{vault}/jobs/{job}/output", "Connection: close\r\n"))
        while b"\r\n\r\n" not in self.replies.kept:
            if not self.replies.more():
                raise Lost
        head, _, rest = self.replies.kept.partition(b"\r\n\r\n")
        reply = Reply(head, b"")
        assert reply.status == 200, head
        count = len(rest) + drained(self.connection)
        assert count == int(reply.fields["content-length"]), count
        self.close()
        return count


def drained(connection):
    """Takes all that comes on a connection and throws it away; returns how many bytes it had."""
    buffer, count = bytearray(MIB), 0
    while more := connection.recv_into(buffer):
        count += more
    return count
