"""Signatures over the checksums of a folder, by ssh-keygen of OpenSSH, so that anybody can verify
them:

    ssh-keygen -Y verify -f signers -I plant -n tracedesk-recall -s SHA256SUMS.sig < SHA256SUMS
"""
from __future__ import annotations

import contextlib
import pathlib
import socket
import subprocess
import tempfile
from collections.abc import Iterator

SUMS, SIGNATURE = "SHA256SUMS", "SHA256SUMS.sig"
NAMESPACE = "tracedesk-recall"
LONGEST = 1 << 16  # bytes of a service's answer
SECONDS = 60.0  # for which it is waited for


class NoSignature(Exception):
    """Why nothing is signed, or a signature isn't that of a signer."""


def keygen(*words: str | pathlib.Path, given: bytes = b"") -> str:
    """What ssh-keygen prints; a NoSignature if it fails."""
    command = ["ssh-keygen", *map(str, words)]
    try:
        done = subprocess.run(
            command, input=given, stdout=subprocess.PIPE, stderr=subprocess.STDOUT
        )
    except FileNotFoundError as fault:
        raise NoSignature(
            "there is no ssh-keygen: install it, as by apt-get install openssh-client"
        ) from fault
    text = done.stdout.decode(errors="replace")
    if done.returncode:
        raise NoSignature(" ".join(text.split()))
    return text


def by_socket(sums: bytes, socket_at: pathlib.Path) -> bytes:
    """The signature that a service gives, which alone has the key."""
    try:
        with socket.socket(socket.AF_UNIX) as link:
            link.settimeout(SECONDS)
            link.connect(str(socket_at))
            link.sendall(sums)
            link.shutdown(socket.SHUT_WR)
            with link.makefile("rb") as answer:
                signature = answer.read(LONGEST)
    except (BrokenPipeError, ConnectionResetError):  # it ended before it read all
        signature = b""
    except OSError as fault:
        raise NoSignature(f"{socket_at} can't be asked: {fault}") from fault
    if not signature:
        raise NoSignature(f"{socket_at} signs nothing: the journal of its service says why")
    return signature


def sign(folder: pathlib.Path, key: pathlib.Path) -> None:
    """Writes the signature next to the checksums of a folder."""
    if key.is_socket():
        (folder / SIGNATURE).write_bytes(by_socket((folder / SUMS).read_bytes(), key))
        return
    try:
        keygen("-Y", "sign", "-f", key, "-n", NAMESPACE, folder / SUMS)
    except NoSignature as fault:
        raise NoSignature(f"{key} doesn't sign: {fault}") from fault


@contextlib.contextmanager
def at_hand(signature: bytes) -> Iterator[str]:
    """A signature in a file, as ssh-keygen wants it."""
    with tempfile.NamedTemporaryFile() as copy:
        copy.write(signature)
        copy.flush()
        yield copy.name


def signer(sums: bytes, signature: bytes, signers: pathlib.Path, name: str = "") -> str:
    """Who of a file of allowed signers signed these checksums; a NoSignature if nobody did, or not
    the one of a name that is given.
    """
    with at_hand(signature) as path:
        words = ("-s", path, "-f", signers)
        try:
            who = name or keygen("-Y", "find-principals", *words).splitlines()[0]
        except NoSignature as fault:
            raise NoSignature(
                f"its key is that of nobody in {signers}: ask the plant for its key by another way"
                " than with the evidence"
            ) from fault
        keygen("-Y", "verify", *words, "-I", who, "-n", NAMESPACE, given=sums)
    return who
