"""The status of a sender; and what the line's book says of reports of work that aren't taken."""
from __future__ import annotations

import json
import pathlib
from typing import Any, Iterator

import at_port
import pytest
import sending
import test_spool
from tracedesk import disk, forms, records, spool


def work(uid: str, word: str = "WorkStarted", **body: Any) -> bytes:
    return at_port.text(word, uid, "M1", **{"Machine": "M1", "Board": "B1", **body})


class Answering(sending.Answering):
    """Takes files too."""

    def do_PUT(self) -> None:
        self.server.put[self.path] = self.body()
        self.reply(201, b"")


class StatusLab(sending.Lab):
    answering = Answering


@pytest.fixture
def lab(tmp_path: pathlib.Path) -> Iterator[StatusLab]:
    made = StatusLab(tmp_path)
    yield made
    made.end()


REFUSED = b"\n".join([work("bad1"), work("bad2", Board="B2"), sending.line("bad3")])


def test_the_status_has_what_waits_and_what_is_set_aside(lab: StatusLab) -> None:
    """In a folder of the line, and by the proxy. What can't be sent there holds nothing up."""
    folder = lab.room / "status"
    folder.mkdir()
    lab.send("--follow", "-", "--status", folder, "--name", "m1", given=REFUSED)
    told = json.loads((folder / "m1.json").read_text())
    names = ("Aside", "Waiting", "OldestWaiting", "Sender", "Fault", "Machines", "Version")
    assert [told[name] for name in names] == [3, 0, None, "m1", None, {}, 1]
    assert (folder / "m1.json").stat().st_mode & 0o777 == 0o644
    lab.send("--status", f"{lab.url}/line/status/", "--name", "m1")
    assert json.loads(lab.server.put["/line/status/m1.json"])["Aside"] == 3
    lab.send("--put", "-", given=sending.line("u4"))
    folder.rename(lab.room / "away")
    assert lab.send("--status", folder).returncode == 2
    done = lab.send("--status", "http://127.0.0.1:1/status")
    assert (done.returncode, lab.names()) == (0, [])
    assert b"the status isn't put into http://127.0.0.1:1/status" in done.stderr


def test_a_refused_report_is_never_sent_again(lab: StatusLab) -> None:
    """The request waits again, the reports do not. After a restore the new desk's book hears of
    them, since the old one is gone.
    """
    lab.send("--follow", "-", given=REFUSED + b"\n" + work("u4"))
    done = lab.send("--again", "all")
    assert (done.returncode, done.stdout) == (6, b"1 wait again, as 000000000005\n"), done.stderr
    assert done.stderr.count(b"is a report of work, and is not sent again") == 2
    assert b": WorkStarted was refused" in done.stderr
    lab.send()
    lab.server.said.clear()
    assert lab.send("--again", "2026-03-02T06:00Z").returncode == 0
    lab.send()
    again, *lost = lab.server.said
    assert again["UniqueID"] == "u4" and "Sha256" not in again
    assert [json.loads(it["Text"])["UniqueID"] for it in lost] == ["bad1", "bad2"]
    assert all(map(records.is_unread, lost)), "without a time they are faulty"
    assert lab.names("sent")[-2:] == ["000000000006", "000000000007"]


@pytest.mark.parametrize(
    "text",
    [
        work("u1", Board="SN-1 Pr\u00fcf").replace(b"\\u00fc", b"\xfc"),
        work("u1", Board="SN-2")[:-2],
        work("u1", Board="SN-3").replace(b"SN-3", b"SN-3\t"),
        b"[]",
        work("u1", More="m").replace(b'"m"', b"[" * 9_000 + b"]" * 9_000),
        work("u1", Quantity=7).replace(b"7}", b"7" * 5000 + b"}"),
    ],
)
def test_a_report_that_nobody_can_read_is_not_sent_again(
    text: bytes, tmp_path: pathlib.Path
) -> None:
    it = spool.Spool(tmp_path / "spool")
    name = it.put(text)
    it.done(name, test_spool.answer(b'{"Answer":"Faulty","Fault":"NotJson"}'))
    assert it.is_report(name)
    with pytest.raises(disk.SpoolError):
        it.again([name])


def test_the_line_hears_of_a_report_that_is_too_long(lab: StatusLab) -> None:
    """By a short message without a time, which is faulty: an entry of its book."""
    long = work("bad1", Designators=["C1"] * 180_000)
    lab.send("--put", "-", given=long)
    assert lab.send().returncode == 1
    (told,) = lab.server.said
    assert records.is_unread(told) and told["UniqueID"].startswith("unread-")
    assert (told["Size"], told["Text"]) == (len(long), None)
    assert told["MessageBody"] == {"Machine": "M1", "Board": "B1"}
    assert len(json.dumps(told)) < forms.LONGEST_MESSAGE
    assert at_port.texts_in(lab.spool, "aside") == {"000000000001": long}
