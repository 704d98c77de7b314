"""The commands of docs/verify.md at a customer's, over that customer's evidence, where nothing of
ours is: a folder with a shell, ssh-keygen and sha256sum alone.

    TRACEDESK_CUSTOMER_ROOT=/srv/debian /usr/bin/python3 -m pytest
    ops/tests/test_verify_elsewhere.py

TRACEDESK_CUSTOMER_ROOT in the environment names a whole Debian instead, as debootstrap makes it.
"""
from __future__ import annotations

import os
import pathlib
import re
import shutil
import subprocess
import textwrap
from typing import Iterator

import pytest
from lab import ROOT
from lab.line import Line
from lab.tools import Word, run
from tracedesk_ops.recalls import signing
from tracedesk_ops.recalls.evidence import sums_of

pytestmark = [
    pytest.mark.root,
    pytest.mark.needs("ssh-keygen"),
    pytest.mark.xdist_group("verify_elsewhere"),
]

COMMANDS = ("sh", "ssh-keygen", "sha256sum")
PATH = "/usr/local/bin:/usr/bin:/bin"
LIBRARY = re.compile(r"(/\S+) \(0x")


def commands() -> list[str]:
    """The commands of the page that a customer calls."""
    text = (ROOT / "docs/verify.md").read_text(encoding="utf-8")
    blocks = re.findall(r"^ *```sh\n(.*?)^ *```", text, re.DOTALL | re.MULTILINE)
    assert len(blocks) == 2 and [block.split()[0] for block in blocks] == [*COMMANDS[1:]]
    return [textwrap.dedent(block) for block in blocks]


def make_root(folder: pathlib.Path) -> pathlib.Path:
    """A folder with these commands, their libraries, and one user."""
    for name in COMMANDS:
        file = shutil.which(name) or ""
        told = subprocess.run(["ldd", file], stdout=subprocess.PIPE, text=True, check=True).stdout
        for path in (file, *LIBRARY.findall(told)):
            to = folder / path.lstrip("/")
            to.parent.mkdir(parents=True, exist_ok=True)
            shutil.copy(path, to)
    for name in ("etc", "dev"):
        (folder / name).mkdir(exist_ok=True)
    (folder / "dev/null").touch()
    (folder / "etc/passwd").write_text("root:x:0:0:root:/:/bin/sh\n")
    return folder


class Customer:
    """A customer's machine, and the evidence that a plant sent."""

    def __init__(self, root: pathlib.Path, line: Line, folder: pathlib.Path) -> None:
        self.root, self.evidence = root, folder / "evidence"
        self.key = folder / "plant"
        run(["ssh-keygen", "-q", "-t", "ed25519", "-N", "", "-f", self.key]).expect()
        self.signers = f'plant namespaces="tracedesk-recall" {self.public()}'
        (folder / "shipped.csv").write_text("board,customer,date\nSN-1,A,2026-03-09\n")
        words: list[Word] = ["--key", self.key, "--evidence", self.evidence]
        words += ["--shipped", folder / "shipped.csv", "--customer", "A"]
        line.recall(*words, lot="240131").expect()
        self.shell = shutil.which("sh") or "/bin/sh"

    def public(self) -> str:
        return self.key.with_suffix(".pub").read_text()

    def copy(self) -> pathlib.Path:
        """The evidence, with the plant's key next to it, at the customer's."""
        to = self.root / "evidence"
        shutil.rmtree(to, ignore_errors=True)
        shutil.copytree(self.evidence, to)
        (to / "plant.signers").write_text(self.signers)
        return to

    def verified(self) -> "list[bool]":
        """What each command of the page says of the evidence: whether it is well."""
        return [self.ended(command) for command in commands()]

    def ended(self, command: str) -> bool:
        done = subprocess.run(
            [self.shell, "-c", f"cd /evidence && {command}"],
            stdout=subprocess.PIPE,
            stderr=subprocess.STDOUT,
            env={"PATH": PATH},
            preexec_fn=lambda: os.chroot(self.root),
        )
        assert b"not found" not in done.stdout, done.stdout
        return done.returncode == 0


@pytest.fixture(scope="module")
def customer(small_line: Line, tmp_path_factory: pytest.TempPathFactory) -> Iterator[Customer]:
    folder = tmp_path_factory.mktemp("customer")
    named = os.environ.get("TRACEDESK_CUSTOMER_ROOT")
    root = pathlib.Path(named) if named else make_root(folder / "root")
    yield Customer(root, small_line, folder)
    shutil.rmtree(root / "evidence", ignore_errors=True)


def rewrite_sums(folder: pathlib.Path) -> None:
    own = (signing.SUMS, signing.SIGNATURE, "plant.signers")
    texts = {file.name: file.read_bytes() for file in folder.iterdir() if file.name not in own}
    (folder / signing.SUMS).write_bytes(sums_of(texts))


@pytest.mark.gate
def test_evidence_is_verified_by_the_two_commands(customer: Customer) -> None:
    customer.copy()
    assert customer.verified() == [True, True]


@pytest.mark.gate
def test_a_row_less_is_refused(customer: Customer) -> None:
    """Also with checksums made anew."""
    folder = customer.copy()
    for file in folder.glob("*.csv"):
        rows = file.read_text().splitlines(keepends=True)
        file.write_text("".join(row for row in rows if "SN-1" not in row))
    assert customer.verified() == [True, False]
    rewrite_sums(folder)
    assert customer.verified() == [False, True]


@pytest.mark.gate
def test_the_signature_of_another_key_is_refused(customer: Customer, folder: pathlib.Path) -> None:
    to, other = customer.copy(), folder / "other"
    run(["ssh-keygen", "-q", "-t", "ed25519", "-N", "", "-f", other]).expect()
    (to / signing.SIGNATURE).unlink()
    signing.sign(to, other)
    assert customer.verified() == [False, True]
