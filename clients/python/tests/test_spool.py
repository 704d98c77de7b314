"""The spool: what is in it survives an end at each call, in its order, and once."""
import contextlib
import os
import pathlib
import subprocess
import sys
import tempfile
import threading
from typing import Any, Callable, Iterator, Optional
from unittest import mock

import pytest
from at_port import PATIENCE, SENDER

from tracedesk import answers, disk, sender, spool, words


class Ended(BaseException):
    """The process ends here."""


@contextlib.contextmanager
def ends_at(number: int) -> Iterator[None]:
    """The process ends before its call of this number, of those that rename and delete files, and
    before or behind each transaction.
    """
    count, whole = 0, spool.Spool.whole

    def step() -> None:
        nonlocal count
        count += 1
        if count == number:
            raise Ended

    def counted(call: Callable[..., Any]) -> Callable[..., Any]:
        def inner(*given: Any, **how: Any) -> Any:
            step()
            return call(*given, **how)

        return inner

    @contextlib.contextmanager
    def stepped(its: spool.Spool) -> Iterator[None]:
        if its.database.in_transaction:
            with whole(its):
                yield
            return
        step()
        with whole(its):
            yield
        step()

    with contextlib.ExitStack() as patched:
        patched.enter_context(mock.patch.object(os, "rename", counted(os.rename)))
        patched.enter_context(mock.patch.object(spool.Spool, "whole", stepped))
        patched.enter_context(
            mock.patch.object(pathlib.Path, "unlink", counted(pathlib.Path.unlink))
        )
        yield


def answer(text: bytes) -> answers.Answer:
    read = answers.read(text)
    assert read
    return read


def accepted(number: int) -> answers.Answer:
    return answer(b'{"Answer":"Accepted","Number":%d,"UniqueID":"u"}' % number)


def refused() -> answers.Answer:
    return answer(b'{"Answer":"Refused","At":"K","Refusal":"Expired","UniqueID":"u"}')


class Lab:
    """A folder for a spool, and one for files of messages."""

    def __init__(self, room: pathlib.Path) -> None:
        self.room, self.folder, self.out = room, room / "spool", room / "out"
        self.out.mkdir()

    def texts(self) -> list[bytes]:
        it = spool.Spool(self.folder)
        return [it.text(name) for name in it.names()]

    def sent(self, texts: list[bytes], answer: Optional[answers.Answer] = None) -> spool.Spool:
        it = spool.Spool(self.folder)
        for text in texts:
            name = it.put(text)
            with it.sending():
                it.done(name, answer or accepted(1))
        return it


@pytest.fixture
def lab(tmp_path: pathlib.Path) -> Lab:
    return Lab(tmp_path)


def test_order_and_numbers_outlive_the_process(lab: Lab) -> None:
    lab.sent([b"%d" % n for n in range(5)])
    first = spool.Spool(lab.folder)
    assert first.put(b"5") == "000000000006"
    first.change("DELETE FROM message")
    assert spool.Spool(lab.folder).put(b"6") == "000000000007"
    assert lab.texts() == [b"6"]


def test_what_is_no_spool_is_named(lab: Lab) -> None:
    """A folder, as spools were before, with what to do; and a file of something else."""
    with pytest.raises(disk.SpoolError, match="is a folder, and a spool is one file.*--put -"):
        spool.Spool(lab.out)
    (lab.out / "notes").write_text("no spool, but some text")
    with pytest.raises(disk.SpoolError, match="can't be used as a spool"):
        spool.Spool(lab.out / "notes")


def test_many_make_a_spool_and_put_messages_in(lab: Lab) -> None:
    code = (
        "import sys; sys.path.insert(0, sys.argv[1]); from tracedesk import Spool\n"
        "for n in range(50): Spool(sys.argv[2]).put(b'%d' % n)"
    )
    words = [sys.executable, "-c", code, str(SENDER.parent), str(lab.folder)]
    running = [subprocess.Popen(words) for _ in range(4)]
    assert [it.wait(PATIENCE) for it in running] == [0] * 4
    assert sorted(map(int, lab.texts())) == sorted([*range(50)] * 4)


def test_one_sends(lab: Lab) -> None:
    with spool.Spool(lab.folder).sending():
        with pytest.raises(disk.SpoolError):
            with spool.Spool(lab.folder).sending():
                pass


def test_a_run_leaves_no_file_open(lab: Lab) -> None:
    def files() -> int:
        return len(os.listdir("/proc/self/fd"))

    before, its = files(), spool.Spool(lab.folder)
    with its.sending():
        its.done(its.put(b"{}"), accepted(1))
    its.close()
    assert before == files()


def test_an_answer_that_ends_anywhere_is_there_with_all_that_follows(lab: Lab) -> None:
    text = b'{"MessageName":"TraceDesk.WorkStarted"}'
    for answer in (accepted(1), refused()):
        for number in range(1, 9):
            lab.folder = lab.room / f"{type(answer).__name__}{number}"
            it, is_ended = spool.Spool(lab.folder), False
            name, behind = it.put(text), it.put(b"b")
            try:
                with it.sending(), ends_at(number):
                    it.take(name)
                    it.done(name, answer)
            except Ended:
                is_ended = True
            after = spool.Spool(lab.folder)
            with after.sending():
                if after.names()[0] == name:  # it is sent again
                    assert is_ended and (after.is_tried(name) or number < 2)
                    after.done(name, answer)
            assert lab.texts() == [b"b"] and after.names() == [behind]
            assert after.names("sent" if answers.is_taken(answer) else "aside") == [name]
    assert not is_ended


def test_a_file_that_is_taken_in_anywhere_is_in_once(lab: Lab) -> None:
    ended = 0
    for number in range(1, 20):
        with tempfile.TemporaryDirectory() as room, mock.patch.object(spool, "AT_ONCE", 2):
            lab.folder, lab.out = pathlib.Path(room, "spool"), pathlib.Path(room, "out")
            lab.out.mkdir()
            file = lab.out / "1.jsonl"
            file.write_bytes(b"a\n\nb\r\nc")
            it = sender.Folder(spool.Spool(lab.folder), lab.out)
            it.news = threading.Event()
            try:
                with ends_at(number):
                    it.look()
            except Ended:
                ended += 1
            if number % 2:  # another program comes between
                spool.Spool(lab.folder).put(b"x")
            it = sender.Folder(spool.Spool(lab.folder), lab.out)
            it.news = threading.Event()
            it.look()
            assert [line for line in lab.texts() if line != b"x"] == [b"a", b"b", b"c"], number
            file.write_bytes(b"a\n\nb\r\nc")  # the same once more is another one
            it.look()
            assert [line for line in lab.texts() if line != b"x"] == [b"a", b"b", b"c"] * 2, number
            assert list(lab.out.iterdir()) == []
    assert ended > 7


def test_set_aside_and_again(lab: Lab) -> None:
    it = spool.Spool(lab.folder)
    name = it.put(words.ClockSet().message("S", unique_id="u-1"))
    with it.sending():
        it.done(name, refused())
    assert "Expired at K" in it.kept(name).why
    assert it.again([name]) == ["000000000002"]
    assert (it.names("aside"), it.names("dropped"), len(it.names())) == ([], [name], 1)
    with pytest.raises(disk.SpoolError):
        it.again(["../x"])


def test_two_senders_of_one_folder(lab: Lab) -> None:
    one, two = (sender.Folder(spool.Spool(lab.room / it), lab.out) for it in "ab")
    with one.held(), pytest.raises(disk.SpoolError), two.held():
        pass


def test_a_look_that_fails_ends_no_follower(lab: Lab) -> None:
    told: list[str] = []
    looks = [MemoryError("no memory"), None, OSError("no disk"), None, Ended]
    follower = sender.Folder(spool.Spool(lab.folder), lab.out, told.append)
    with mock.patch.object(follower, "look", side_effect=looks), mock.patch(
        "time.sleep"
    ), pytest.raises(Ended):
        follower.run()
    assert [it.split(".")[0] for it in told] == ["no memory", "no disk"]


def test_a_line_that_is_far_too_long_comes_in_pieces(lab: Lab) -> None:
    place = lab.out / "1.jsonl"
    place.write_bytes(b"a\n" + b"x" * 8 + b"\nb\n \n" + b"y" * 14)
    with mock.patch.object(disk, "LONGEST_LINE", 9):
        assert spool.Spool(lab.folder).take_file(place) == 5
    assert lab.texts() == [b"a", b"x" * 8, b"b", b"y" * 9, b"y" * 5]


def test_sent_messages_go_again_in_front(lab: Lab) -> None:
    it = lab.sent([b"a", b"b"])
    ((began,),) = it.rows("SELECT answered FROM message WHERE n = 2")
    lab.sent([b'{"MessageName":"TraceDesk.PartDefined"}'], refused())
    lab.sent([b"c"])
    it.put(b"d")
    for number in range(1, 4):  # ended anywhere, and gone on with
        with contextlib.suppress(Ended), ends_at(number):
            it.again_since(began)
        assert lab.texts() == ([b"d"] if number == 1 else [b"b", b"c", b"d"])
        its = it.names()[:-1]
        assert [it.is_tried(name) for name in its] == [True] * len(its)
        for name in its:
            it.done(name, accepted(1))
    assert it.again_since(began) == ["000000000002", "000000000004"]
    with it.sending(), pytest.raises(disk.SpoolError):
        spool.Spool(lab.folder).again_since(0)


def test_sent_messages_are_kept_by_age_and_size(lab: Lab) -> None:
    for days, most, always, wanted in (
        (9, 1 << 20, 0, 5),
        (9, 200, 0, 2),
        (-1, 1 << 20, 0, 1),
        (-1, 1 << 20, 1 << 20, 5),
        (9, 0, 0, 1),
    ):
        with mock.patch.object(spool, "ALWAYS_KEPT", always):
            it = spool.Spool(lab.room / f"{days} {most} {always}", days, most)
            for number in range(6):
                name = it.put(b"%d" % number * 100)
                with it.sending():
                    it.done(name, refused() if number == 2 else accepted(1))
            it.forget()
            kept = it.names("sent")
            assert (len(kept), kept[-1], it.names("aside")) == (
                wanted,
                "000000000006",
                ["000000000003"],
            )
            assert it.dropped_early == (5 - wanted if days > 0 else 0)


def test_a_lease_is_renewed_and_ends(lab: Lab) -> None:
    """One of another start of this machine has ended."""
    it = spool.Spool(lab.folder)
    it.renew("program")
    at = it.feeders()["program"]
    it.renew("program")
    assert it.feeders() == {"program": at} and spool.clock() - at < PATIENCE
    with mock.patch.object(spool, "clock", lambda: at + spool.RENEWED):
        it.renew("program")
    assert it.feeders() == {"program": at + spool.RENEWED}
    it.change("UPDATE feeder SET ahead = ahead - 100")
    assert it.feeders() == {"program": -float("inf")}
    it.release("program")
    assert it.feeders() == {}


def test_only_whole_files_are_taken(lab: Lab) -> None:
    for name in (".hidden.json", "being-written.tmp", "b.jsonl", "a.json"):
        (lab.out / name).write_bytes(b"x")
    assert [it.name for it in disk.files_in(lab.out)] == ["a.json", "b.jsonl"]
