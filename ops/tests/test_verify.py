"""The evidence of a recall: who signed it, that nothing was changed, and that its answer comes
again.
"""
from __future__ import annotations

import contextlib
import json
import pathlib
import random
import shutil
import socketserver
import subprocess
import threading
from typing import Any, Callable, Iterator

import pytest
from lab import ROOT
from lab.line import table
from lab.recalls import key_in, lot_of, places_in, recall, signers_of
from lab.tools import Ended, Word, run, run_tool
from lab.world import RUNNING, World
from tracedesk_ops import plant as ops
from tracedesk_ops.cmd import verify
from tracedesk_ops.recalls import signing, verifying
from tracedesk_ops.recalls.evidence import sums_of

pytestmark = [pytest.mark.needs("ssh-keygen"), pytest.mark.xdist_group("verify")]

FLIPS = 250  # each is two calls of ssh-keygen


class Plant:
    """A plant's key, and evidence that it signed."""

    def __init__(self, world: World, folder: pathlib.Path) -> None:
        self.world, self.folder, self.lot = world, folder, lot_of(world)
        self.key = key_in(folder, "plant")
        self.signers = signers_of(self.key)
        self.evidence = folder / "evidence"
        self.recall("--key", self.key, "--evidence", self.evidence).expect()

    def recall(self, *more: Word, lot: str = "") -> Ended:
        return recall("lot", lot or self.lot, *self.world.words(), *more)

    def copy(self, name: str) -> pathlib.Path:
        """A copy of the evidence, in which something may be changed."""
        shutil.copytree(self.evidence, self.folder / name)
        return self.folder / name

    @staticmethod
    def sums_of_anybody(folder: pathlib.Path, sums: bytes) -> None:
        (folder / signing.SUMS).write_bytes(sums)

    def sums_anew(self, folder: pathlib.Path) -> None:
        left_out = (signing.SUMS, signing.SIGNATURE)
        texts = {it.name: it.read_bytes() for it in folder.iterdir() if it.name not in left_out}
        (folder / signing.SUMS).write_bytes(sums_of(texts))

    def sign_anew(self, folder: pathlib.Path, key: pathlib.Path) -> None:
        self.sums_anew(folder)
        (folder / signing.SIGNATURE).unlink(missing_ok=True)
        signing.sign(folder, key)

    def verify(self, folder: pathlib.Path, *more: Word) -> Ended:
        return run_tool("verify", folder, "--signers", self.signers, *more)

    @property
    def archives(self) -> list[Word]:
        words: list[Word] = []
        for line in self.world.lines:
            words += ["--archives", line.archive]
        return words


@pytest.fixture(scope="module")
def plant(world: World, tmp_path_factory: pytest.TempPathFactory) -> Plant:
    return Plant(world, tmp_path_factory.mktemp("plant"))


@contextlib.contextmanager
def changed(file: pathlib.Path, content: bytes) -> Iterator[None]:
    kept = file.read_bytes()
    file.write_bytes(content)
    try:
        yield
    finally:
        file.write_bytes(kept)


def told_in(folder: pathlib.Path) -> dict[str, Any]:
    return dict(json.loads((folder / "certificate.json").read_text()))


def without_a_row(folder: pathlib.Path) -> None:
    """Takes a board out of all files."""
    board = table((folder / "boards.csv").read_text())[0]["board"]
    for file in folder.iterdir():
        lines = file.read_text().splitlines(keepends=True)
        file.write_text("".join(line for line in lines if board not in line))


# --- What is genuine


def test_what_the_plant_signed_is_verified(plant: Plant) -> None:
    done = plant.verify(plant.evidence).expect(0, "signed by plant", "verified")
    assert (
        f"lot {plant.lot}, asked at " in done.err and "of the lines L1, L2. Complete: " in done.err
    )


def test_the_answer_comes_again_from_the_archives(plant: Plant) -> None:
    done = plant.verify(plant.evidence, *plant.archives)
    done.expect(0, "L1: the answer comes again", "L2: the answer comes again", "verified")


def test_a_customer_needs_no_tools_of_ours(plant: Plant) -> None:
    words = "-Y verify -I plant -n tracedesk-recall -s SHA256SUMS.sig".split()
    sums = (plant.evidence / "SHA256SUMS").read_bytes()
    command: list[Word] = ["ssh-keygen", *words, "-f", plant.signers]
    run(command, given=sums, cwd=plant.evidence).expect(0, "Good")
    check = ["sha256sum", "--check", "--strict", "--quiet", "SHA256SUMS"]
    run(check, cwd=plant.evidence).expect()


def test_the_certificate_names_programs_and_files(plant: Plant) -> None:
    told = told_in(plant.evidence)
    file = ops.chain_of(str(plant.world.program)) or ""
    sha256 = subprocess.check_output(["sha256sum", file], text=True)[:64]
    assert told["programs"]["tracedesk-chain"]["sha256"] == sha256
    assert len(told["programs"]["tracedesk-recall"]["sha256"]) == 64
    archives = [its["file"] for its in told["lines"][0]["archives"]]
    assert archives == [*(file.name for file in plant.world.first.archived), RUNNING]
    assert told["question"] == {"kind": "lot", "name": plant.lot}


def test_a_set_up_file_names_the_key(plant: Plant, folder: pathlib.Path) -> None:
    (folder / "L1.conf").write_text(f"line = L1\nkey = {plant.key}\n")
    words: list[Word] = ["lot", plant.lot, *plant.world.words(), "--evidence", folder / "evidence"]
    run_tool("recall", *words, env={"TRACEDESK_SET_UP": str(folder)}).expect()
    plant.verify(folder / "evidence").expect(0, "verified")


@contextlib.contextmanager
def signing_service(key: pathlib.Path, at: pathlib.Path) -> Iterator[None]:
    """The service that has the key, as its unit calls it."""
    unit = (ROOT / "packaging/tracedesk-recall-sign@.service").read_text()
    (call,) = (line for line in unit.splitlines() if line.startswith("ExecStart="))
    words = call.partition("=")[2].replace("%d/key", str(key)).split()

    class Handler(socketserver.BaseRequestHandler):
        def handle(self) -> None:
            number = self.request.fileno()
            subprocess.run(words, stdin=number, stdout=number, stderr=subprocess.DEVNULL)

    with socketserver.ThreadingUnixStreamServer(str(at), Handler) as server:
        threading.Thread(target=server.serve_forever, daemon=True).start()
        yield
        server.shutdown()


def test_a_service_that_has_the_key_signs(plant: Plant, folder: pathlib.Path) -> None:
    """Who asks it can't read the key."""
    with signing_service(plant.key, folder / "sign"):
        plant.recall("--key", folder / "sign", "--evidence", folder / "evidence").expect()
    plant.verify(folder / "evidence").expect(0, "signed by plant", "verified")
    with signing_service(folder / "no-key", folder / "none"):
        done = plant.recall("--key", folder / "none", "--evidence", folder / "nothing")
    done.expect(4, "signs nothing")
    done = plant.recall("--key", folder / "sign", "--evidence", folder / "nothing")
    done.expect(4, "can't be asked")
    assert not (folder / "nothing").exists()


# --- What is not


def status_of(folder: pathlib.Path, signers: pathlib.Path) -> str:
    """Why evidence is refused; empty if it isn't."""
    try:
        _, contents = verifying.signed(folder, signers)
        verifying.told_in(contents)
    except verifying.Refused as fault:
        return str(fault)
    return ""


def test_each_flipped_bit_is_refused(plant: Plant, seed: int) -> None:
    """Half of them in the checksums and the signature, which are small. Of the signature that is
    its letters: ssh-keygen reads them whatever ends their lines.
    """
    folder = plant.copy("flipped")
    rng = random.Random(seed)
    files = sorted(file for file in folder.iterdir() if file.stat().st_size)
    small = [folder / signing.SUMS, folder / signing.SIGNATURE]
    assert not status_of(folder, plant.signers)
    for number in range(FLIPS):
        file = rng.choice(small if number % 2 else files)
        text = bytearray(file.read_bytes())
        place = rng.choice(places_in(text))
        text[place] ^= 1 << rng.randrange(8)
        with changed(file, bytes(text)):
            assert status_of(folder, plant.signers), f"{file.name}, byte {place}"


FORGED: dict[str, Callable[[list[str], list[str]], list[str]]] = {
    "cut": lambda rows, _: rows[:-1],
    "in another order": lambda rows, _: [rows[0], *rows[:0:-1]],
    "of another question": lambda _, other: other,
}


@pytest.mark.parametrize("name", FORGED)
def test_a_table_that_the_plant_did_not_sign_is_refused(plant: Plant, name: str) -> None:
    """Also one of another recall that it signed."""
    folder, other = plant.copy(f"forged {name}"), plant.folder / f"other {name}"
    plant.recall("--key", plant.key, "--evidence", other, lot="none").expect(1)
    rows = ((it / "pieces.csv").read_text().splitlines(keepends=True) for it in (folder, other))
    (folder / "pieces.csv").write_text("".join(FORGED[name](*rows)))
    plant.verify(folder).expect(1, "REFUSED: pieces.csv was changed")
    shutil.copy(other / signing.SIGNATURE, folder)
    shutil.copy(other / signing.SUMS, folder)
    plant.verify(folder).expect(1, "REFUSED: ")


def test_a_row_that_is_taken_out_everywhere_is_refused(plant: Plant) -> None:
    """Also if somebody else signs that."""
    folder = plant.copy("row")
    without_a_row(folder)
    plant.sums_anew(folder)
    plant.verify(folder).expect(1, "REFUSED", "the signature doesn't hold")
    plant.sign_anew(folder, key_in(plant.folder, "other"))
    plant.verify(folder).expect(1, "REFUSED", "nobody in")


@pytest.mark.parametrize("name", [signing.SIGNATURE, "pieces.csv"])
def test_a_file_that_is_missing_is_refused(plant: Plant, name: str) -> None:
    folder = plant.copy(f"without {name}")
    (folder / name).unlink()
    plant.verify(folder).expect(1, f"REFUSED: {name} is missing")


def test_a_file_more_is_refused(plant: Plant) -> None:
    folder = plant.copy("more")
    (folder / "boards-2.csv").write_text("board\n")
    plant.verify(folder).expect(1, "boards-2.csv is not in SHA256SUMS")


def test_another_archive_of_the_same_name_is_refused(plant: Plant) -> None:
    renamed = plant.folder / "renamed"
    renamed.mkdir()
    for file in plant.world.first.archived:
        shutil.copy(plant.world.second.archived[0], renamed / file.name)
    done = plant.verify(plant.evidence, "--archives", renamed)
    done.expect(1, "REFUSED", "is another archive")


def test_a_row_less_that_the_plant_signs_is_refused_by_its_archives(plant: Plant) -> None:
    folder = plant.copy("signed-row")
    without_a_row(folder)
    plant.sign_anew(folder, plant.key)
    plant.verify(folder).expect(0)
    done = plant.verify(folder, *plant.archives)
    done.expect(1, "REFUSED", "tracedesk-chain answers otherwise")


CHANGED_BOARDS: dict[str, Callable[[list[str]], list[str]]] = {  # the rows of that table
    "a row less": lambda rows: rows[:-1],
    "another board": lambda rows: [*rows[:-1], f"X{rows[-1]}"],
}


@pytest.mark.parametrize("name", CHANGED_BOARDS)
def test_boards_that_are_not_those_of_the_pieces_are_refused(plant: Plant, name: str) -> None:
    """Also if the plant's own key signs them."""
    change = CHANGED_BOARDS[name]
    folder = plant.copy(name)
    rows = (folder / "boards.csv").read_text().splitlines(keepends=True)
    (folder / "boards.csv").write_text("".join(change(rows)))
    plant.sign_anew(folder, plant.key)
    plant.verify(folder, *plant.archives).expect(1, "REFUSED: its boards are not those of its")


def test_without_the_archives_at_hand_nothing_is_said_of_them(plant: Plant) -> None:
    done = plant.verify(plant.evidence, "--archives", plant.folder)
    done.expect(1, "is in none of the folders")


# lines of signers, who is wanted, and whether they take a signature of the plant's key
SIGNERS = {
    "the plant": (["plant {}"], "plant", True),
    "another plant of the same file": (["plant {}", "brno {other}"], "brno", False),
    "a key that was replaced": (['plant valid-before="20260101" {}'], "", False),
    "a key of another use": (['plant namespaces="git" {}'], "", False),
}


@pytest.mark.parametrize("name", SIGNERS)
def test_whose_signature_counts(folder: pathlib.Path, name: str) -> None:
    lines, who, is_taken = SIGNERS[name]
    key, other = (key_in(folder, its).with_suffix(".pub").read_text() for its in ("a", "b"))
    (folder / "signers").write_text("".join(its.format(key, other=other) for its in lines))
    (folder / signing.SUMS).write_bytes(b"sums")
    signing.sign(folder, folder / "a")
    signed = b"sums", (folder / signing.SIGNATURE).read_bytes(), folder / "signers"
    if is_taken:
        assert signing.signer(*signed, who) == "plant"
    else:
        with pytest.raises(signing.NoSignature):
            signing.signer(*signed, who)


# --- What is read


def test_nothing_is_read_before_the_signature(
    plant: Plant, monkeypatch: pytest.MonkeyPatch
) -> None:
    """Of 40 GB in a file nothing, and of long checksums no more than evidence has."""
    folder = plant.copy("large")
    with open(folder / "pieces.csv", "r+b") as file:
        file.truncate(40 << 30)
    asked: list[str] = []
    read = verifying.read

    def noted(folder: pathlib.Path, name: str, most: int) -> bytes:
        asked.append(name)
        return read(folder, name, most)

    monkeypatch.setattr(verifying, "read", noted)
    plant.sums_of_anybody(folder, b"0" * 64 + b"  x\n")
    assert "the signature doesn't hold" in status_of(folder, plant.signers)
    assert asked == [signing.SUMS, signing.SIGNATURE]
    plant.sums_of_anybody(folder, b"x" * (33 << 20))
    assert status_of(folder, plant.signers) == f"{signing.SUMS} is longer than evidence is"


def test_a_file_that_is_longer_than_evidence_is_refused(
    plant: Plant, monkeypatch: pytest.MonkeyPatch
) -> None:
    monkeypatch.setattr(verifying, "MOST", 1 << 20)
    folder = plant.copy("sparse")
    with open(folder / "pieces.csv", "r+b") as file:
        file.truncate(40 << 30)
    assert status_of(folder, plant.signers) == "pieces.csv is longer than evidence is"


@pytest.mark.parametrize("name", [signing.SUMS, signing.SIGNATURE, "pieces.csv"])
def test_a_link_in_evidence_is_refused(plant: Plant, name: str) -> None:
    folder = plant.copy(f"link-{name}")
    (folder / name).unlink()
    (folder / name).symlink_to(plant.evidence / name)
    assert f"{name} can't be read" in status_of(folder, plant.signers)


# --- What nobody signs


def test_without_a_key_nothing_is_signed(plant: Plant) -> None:
    folder = plant.folder / "unsigned"
    plant.recall("--evidence", folder).expect(0, "not signed")
    assert not (folder / signing.SIGNATURE).exists()


def test_a_key_that_nobody_may_read_signs_nothing(plant: Plant) -> None:
    done = plant.recall("--key", plant.folder / "none", "--evidence", plant.folder / "nothing")
    done.expect(4, "doesn't sign")
    assert not (plant.folder / "nothing").exists()


def test_words_that_are_not_taken(plant: Plant) -> None:
    run_tool("verify", plant.folder / "none").expect(2)
    run_tool("verify", plant.evidence, "--signers", plant.folder / "none").expect(2)
    run_tool("verify", plant.evidence).expect(2)
    assert verify.NOT_KNOWN == 3
