#!/usr/bin/env python3
"""Prints signed requests, or the replies to them: signed_requests.rt and signed_replies.rt of glacier_session_tests.

    bench/signed_texts.py requests >crates/glacier_session_tests/src/signed_requests.rt
    bench/signed_texts.py replies >crates/glacier_session_tests/src/signed_replies.rt

Signatures are made here by hashlib and hmac alone, as Signature Version 4 states them: the
canonical request, the string to sign, the signing key, the signature. Replies are put together
from the rules in docs/rules, with lengths by len and dates by datetime.
"""
import hashlib
import hmac
import sys
from datetime import datetime, timezone
from email.utils import format_datetime

FIRST = ("AKIDEXAMPLE", "wJalrXUtnFEMI/K7MDENG+bPxRfiCYEXAMPLEKEY")
SECOND = ("AKIDOTHER", "another/secret")
READING = 1337905493
HASH = "x-amz-content-sha256"
BASE = [
    ("host", "127.0.0.1:8080"),
    ("x-amz-date", "20120525T002453Z"),
    ("x-amz-glacier-version", "2012-06-01"),
]
VAULT = "/-/vaults/examplevault"
LONG = 1048577


def sha256(body):
    return hashlib.sha256(body).hexdigest()


def mac(key, text):
    return hmac.new(key, text.encode(), hashlib.sha256).digest()


def signed(
    method, path, more=(), payload=None, by=FIRST, date="20120525", region="us-east-1", length=None, base=BASE
):
    """A head whose fields are all signed, but for its length. A value with blanks in it stands for several."""
    fields = sorted(base + list(more))
    names = ";".join(name for name, _ in fields)
    scope = f"{date}/{region}/glacier/aws4_request"
    lines = [method, path, ""] + [f"{name}:{','.join(value.split())}" for name, value in fields]
    request = "\n".join(lines + ["", names, payload or sha256(b"")])
    to_sign = "\n".join(["AWS4-HMAC-SHA256", dict(fields)["x-amz-date"], scope, sha256(request.encode())])
    key = ("AWS4" + by[1]).encode()
    for part in scope.split("/"):
        key = mac(key, part)
    head = f"{method} {path} HTTP/1.1\r\n" + "".join(
        f"{name}: {one}\r\n" for name, value in fields for one in value.split() or [""]
    )
    head += f"Authorization: AWS4-HMAC-SHA256 Credential={by[0]}/{scope}, "
    head += f"SignedHeaders={names}, Signature={mac(key, to_sign).hex()}\r\n"
    if length is not None:
        head += f"Content-Length: {length}\r\n"
    return head + "\r\n"


def reply(status, reason, fields, body="", later=0, close=""):
    date = format_datetime(datetime.fromtimestamp(READING + later, timezone.utc), usegmt=True)
    kind = "Content-Type: application/json\r\n" if body else ""
    length = "" if status == 204 else f"Content-Length: {len(body)}\r\n"
    return f"HTTP/1.1 {status} {reason}\r\nDate: {date}\r\n{fields}{kind}{close}{length}\r\n{body}"


def output(status, reason, fields, body):
    """The output of a job, 300 s later."""
    return reply(status, reason, fields + "Content-Type: application/octet-stream\r\n", "", 300).replace(
        "Content-Length: 0", f"Content-Length: {len(body)}"
    ) + body


def refusal(status, code, message, later=0, close=""):
    reason = {400: "Bad Request", 403: "Forbidden", 404: "Not Found"}[status]
    body = f'{{"code":"{code}","message":"{message}","type":"Client"}}'
    return reply(status, reason, "", body, later, close)


def made(later=0, name="examplevault"):
    return reply(201, "Created", f"Location: /111122223333/vaults/{name}\r\n", "", later)


def waits(head):
    """The same head of a client that waits before its body."""
    return head.replace("Auth", "Expect: 100-continue\r\nAuth")


PUT = signed("PUT", VAULT)
PUT_OF_3_BYTES = signed("PUT", VAULT, payload=sha256(b"abc"), length=3)
PUT_OF_A_WRONG_DIGEST = signed("PUT", VAULT, [(HASH, sha256(b""))], length=3)
HELLO = [(HASH, sha256(b"hello")), ("x-amz-sha256-tree-hash", sha256(b"hello"))]
UPLOAD = signed("POST", VAULT + "/archives", HELLO, sha256(b"hello"), length=5)
ARCHIVE = "a" + "0" * 20
JOB = "j" + "0" * 19 + "1"
RETRIEVAL = f'{{"Type":"archive-retrieval","ArchiveId":"{ARCHIVE}","Tier":"Expedited"}}'
OUTPUT = f"{VAULT}/jobs/{JOB}/output"
V = "/111122223333/vaults/v"
NO_VERSION = BASE[:2]
LONG_HASH = sha256(b"a" * LONG)
CLOSE = "Connection: close\r\n"
SIGNATURE = "InvalidSignatureException"
PARAMETER = "InvalidParameterValueException"
REQUESTS = {
    "PUT": PUT,
    "GET": signed("GET", VAULT),
    "GET_NO_SUCH": signed("GET", "/-/vaults/nosuch"),
    "GET_BY_OTHER": signed("GET", VAULT, by=SECOND),
    "GET_OF_FIRST_BY_OTHER": signed("GET", "/111122223333/vaults/examplevault", by=SECOND),
    "PUT_BY_NOBODY": signed("PUT", VAULT, by=("AKIDNOBODY", FIRST[1])),
    "PUT_OF_ANOTHER_DAY": signed("PUT", VAULT, date="20120526"),
    "PUT_OF_ANOTHER_REGION": signed("PUT", VAULT, region="us-west-2"),
    "PUT_WITHOUT_AUTHORIZATION": PUT[: PUT.index("Authorization")] + "\r\n",
    "PUT_OF_UPPER_CASE": PUT.replace("Signature=7b", "Signature=7B"),
    "PUT_OF_ANOTHER_DIGIT": PUT.replace("Signature=7", "Signature=8"),
    "PUT_WITH_A_FIELD_MORE": PUT.replace("Auth", "x-amz-archive-description: x\r\nAuth"),
    "PUT_OF_3_BYTES": PUT_OF_3_BYTES,
    "PUT_OF_3_BYTES_THAT_WAITS": waits(PUT_OF_3_BYTES),
    "PUT_OF_NO_BYTE_THAT_WAITS": waits(PUT),
    "PUT_OF_A_DIGEST": signed("PUT", VAULT, [(HASH, sha256(b"abc"))], sha256(b"abc"), length=3),
    "PUT_OF_A_WRONG_DIGEST": PUT_OF_A_WRONG_DIGEST,
    "PUT_OF_A_WRONG_DIGEST_THAT_WAITS": waits(PUT_OF_A_WRONG_DIGEST),
    "PUT_OF_NO_DIGEST": signed("PUT", VAULT, [(HASH, "x")], "x"),
    "PUT_WITHOUT_DIGEST": signed("PUT", VAULT, length=LONG),
    "PUT_OF_A_LONG_BODY": signed("PUT", VAULT, [(HASH, LONG_HASH)], LONG_HASH, length=LONG),
    "PUT_VAULT": signed("PUT", V),
    "DELETE_VAULT": signed("DELETE", V),
    "DELETE": signed("DELETE", VAULT),
    "DELETE_NO_SUCH": signed("DELETE", "/-/vaults/nosuch"),
    "DELETE_BY_OTHER": signed("DELETE", VAULT, by=SECOND),
    "DELETE_OF_FIRST_BY_OTHER": signed("DELETE", "/111122223333/vaults/examplevault", by=SECOND),
    "POST_VAULT": signed("POST", V),
    "PUT_VAULT_ELSEWHERE": signed("PUT", "/111122223333/vault/v"),
    "PUT_BELOW_VAULT": signed("PUT", V + "/"),
    "GET_VAULTS": signed("GET", "/111122223333/vaults"),
    "GET_OF_11_DIGITS": signed("GET", "/11112222333/vaults/v"),
    "POST_NO_NAME": signed("POST", "/111122223333/vaults/"),
    "PUT_NO_NAME": signed("PUT", "/-/vaults/"),
    "DELETE_NO_NAME": signed("DELETE", "/-/vaults/"),
    "GET_TWO_DOTS": signed("GET", "/111122223333/vaults/.."),
    "GET_TILDE": signed("GET", "/111122223333/vaults/a~b"),
    "PUT_BAD_NAME_OF_OTHER": signed("PUT", "/444455556666/vaults/.."),
    "GET_OF_OTHER_WITH_TOKEN": signed("GET", "/444455556666/vaults/v", [("x-amz-security-token", "t")]),
    "GET_WITH_TOKEN": signed("GET", V, [("x-amz-security-token", "")], base=NO_VERSION),
    "GET_WITHOUT_VERSION": signed("GET", V, [(HASH, "x")], "x", base=NO_VERSION),
    "GET_OF_TWO_VERSIONS": signed(
        "GET", V, [("x-amz-glacier-version", "2012-06-01 2012-06-01"), (HASH, "x")], "x", base=NO_VERSION
    ),
    "UPLOAD": UPLOAD,
    "UPLOAD_THAT_WAITS": waits(UPLOAD),
    "BEGIN_RETRIEVAL": signed("POST", VAULT + "/jobs", payload=sha256(RETRIEVAL.encode()), length=len(RETRIEVAL))
    + RETRIEVAL,
    "GET_OUTPUT": signed("GET", OUTPUT),
    "GET_PART": signed("GET", OUTPUT).replace("Auth", "Range: bytes=1-3\r\nAuth"),
    "DELETE_ARCHIVE": signed("DELETE", f"{VAULT}/archives/{ARCHIVE}"),
}
REPLIES = {
    "CONTINUE": "HTTP/1.1 100 Continue\r\n\r\n",
    "MADE": made(),
    "MADE_LATER": made(900),
    "MADE_VAULT": made(0, "v"),
    "DESCRIBED": reply(
        200,
        "OK",
        "",
        '{"CreationDate":"2012-05-25T00:24:53.000Z","LastInventoryDate":null,"NumberOfArchives":0,'
        '"SizeInBytes":0,"VaultARN":"arn:aws:glacier:us-east-1:111122223333:vaults/examplevault",'
        '"VaultName":"examplevault"}',
    ),
    "DELETED": reply(204, "No Content", ""),
    "DELETED_LATER": reply(204, "No Content", "", later=300),
    "UPLOADED": reply(
        201,
        "Created",
        f"Location: /111122223333/vaults/examplevault/archives/{ARCHIVE}\r\n"
        f"x-amz-sha256-tree-hash: {sha256(b'hello')}\r\nx-amz-archive-id: {ARCHIVE}\r\n",
    ),
    "RETRIEVING": reply(
        202, "Accepted", f"Location: /111122223333/vaults/examplevault/jobs/{JOB}\r\nx-amz-job-id: {JOB}\r\n"
    ),
    "NOT_READY": refusal(400, PARAMETER, "The job is ready at 20120525T002953Z."),
    "OUTPUT": output(200, "OK", f"x-amz-sha256-tree-hash: {sha256(b'hello')}\r\n", "hello"),
    "PART": output(206, "Partial Content", "Content-Range: bytes 1-3/5\r\n", "ell"),
    "OTHER_BYTES": refusal(400, PARAMETER, f"Content hash is {sha256(b'hallo')}, not {sha256(b'hello')}."),
    "NO_SUCH": refusal(404, "ResourceNotFoundException", "Vault not found: nosuch"),
    "NO_VAULT": refusal(404, "ResourceNotFoundException", "Vault not found: examplevault"),
    "NO_VAULT_AND_CLOSE": refusal(
        404, "ResourceNotFoundException", "Vault not found: examplevault", 0, CLOSE
    ),
    "TOO_LONG": refusal(400, "BadRequest", "The request head is too long.", 0, CLOSE),
    "OTHER_ACCOUNT": refusal(403, "AccessDeniedException", "The account is not the signer's."),
    "MISSING": refusal(400, "MissingAuthenticationTokenException", "Authorization or x-amz-date is missing."),
    "MALFORMED": refusal(403, SIGNATURE, "Authorization or x-amz-date is not valid."),
    "UNKNOWN_KEY": refusal(403, "UnrecognizedClientException", "The access key is not known."),
    "WRONG_SCOPE": refusal(403, SIGNATURE, "The credential scope does not fit."),
    "UNSIGNED": refusal(403, SIGNATURE, "Not signed: x-amz-archive-description"),
    "SKEWED": refusal(403, SIGNATURE, "The date 20120525T002453Z is too far from 20120525T003954Z.", 901),
    "BAD_SIGNATURE": refusal(403, SIGNATURE, "The signature does not match."),
    "HASH_NEEDED": refusal(400, "MissingParameterValueException", f"{HASH} is needed for {LONG} bytes."),
    "NO_ROUTE": refusal(404, "ResourceNotFoundException", "No such operation."),
    "BAD_NAME": refusal(400, PARAMETER, "The vault name is not valid."),
    "TOKEN": refusal(400, PARAMETER, "x-amz-security-token is not accepted."),
    "WITHOUT_VERSION": refusal(400, "MissingParameterValueException", "x-amz-glacier-version is missing."),
    "OTHER_VERSION": refusal(400, PARAMETER, "x-amz-glacier-version is not 2012-06-01."),
    "BAD_SYNTAX": refusal(400, "BadRequest", "The request head is not valid.", 0, CLOSE),
    "BAD_LENGTH": refusal(400, "BadRequest", "The Content-Length is not valid.", 0, CLOSE),
    "BAD_CODING": refusal(400, "BadRequest", "Transfer-Encoding is not accepted.", 0, CLOSE),
    "BAD_PATH": refusal(400, PARAMETER, "The path is not valid.", 0, CLOSE),
    "BODY_TOO_LONG": refusal(400, PARAMETER, f"The body has {LONG} bytes."),
    "BAD_HEADER": refusal(400, PARAMETER, f"Bad header: {HASH}"),
    "MISMATCH": refusal(400, PARAMETER, f"Content hash is {sha256(b'abc')}, not {sha256(b'')}."),
}


def main():
    kind = sys.argv[1]
    print(f"// Texts of signed {kind}: bench/signed_texts.py prints this file.")
    for name, text in {"requests": REQUESTS, "replies": REPLIES}[kind].items():
        shown = text.replace('"', '\\"').replace("\r\n", "\\r\\n\\\n    ")
        shown = shown.replace("\\\n    \\r\\n", "\\r\\n").removesuffix("\\\n    ")
        print(f'\npub const {name}: &str = "{shown}";')


if __name__ == "__main__":
    main()
