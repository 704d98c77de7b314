"""Which tapes of a line are in doubt, and whom that concerns."""
import contextlib
import sqlite3
from typing import Iterable, Optional

import pytest
from lab import files, messages
from lab.records import refused
from tracedesk_ops import catalogue, doubts, model, tapes, untraced
from tracedesk_ops.firstlook import Question
from tracedesk_ops.tapes import COUNT, LATE, REFUSED, DoubtfulPiece, Tapes

KNOWN = ("R1", "R2", "R3")
REFUSED_AT = catalogue.spelled(5)

# an accepted command: its own minute, that in which it acts, itself, and the reel of its piece
Accepted = tuple[int, int, tuple[str, ...], str]


def loaded(own: int, reel: str, slot: str = "1", effective: int = 0) -> Accepted:
    return own, effective or own, ("MaterialsLoaded", "M", slot, reel), ""


def spliced(own: int, reel: str, slot: str = "1") -> Accepted:
    return own, own, ("MaterialsSpliced", "M", slot, reel), ""


def unloaded(own: int, effective: int = 0) -> Accepted:
    return own, effective or own, ("MaterialsUnloaded", "M", "1"), ""


def placed(own: int, reel: str, effective: int = 0) -> Accepted:
    """A piece of a board that has the minute for a name."""
    return own, effective or own, ("MaterialsInstalled", "M", str(own), "C1"), reel


FIRST = (loaded(1, "R1"), placed(2, "R1"))
SPLICE = ("MaterialsSpliced", "Expired")
LOAD, PLACED = "MaterialsLoaded\tM\t1\tR1", "MaterialsInstalled\tM\tB\tC1"
# what was refused in minute 5 of R2 on slot 1, what was accepted after FIRST, and the boards in
# doubt, each with the reels that it may be of besides, and why
STORIES: dict[str, tuple[Optional[tuple[str, str]], list[Accepted], list[tuple[str, str, str]]]] = {
    "a splice that stays": (
        SPLICE,
        [spliced(6, "R3"), placed(7, "R1"), placed(8, "R3"), loaded(9, "R1"), placed(10, "R1")],
        [("7", "R2; R3", REFUSED), ("8", "R1; R2", REFUSED)],
    ),
    "a load on a taken slot": (
        ("MaterialsLoaded", "SlotTaken"),
        [placed(7, "R1"), loaded(9, "R3"), placed(10, "R3")],
        [("7", "R2", REFUSED)],
    ),
    "a wrong reel, and the right one in the same minute": (
        ("MaterialsLoaded", "WrongPart"),
        [loaded(5, "R3"), placed(6, "R3")],
        [],
    ),
    "a refused reel that is spliced later": (
        SPLICE,
        [loaded(6, "R2"), placed(7, "R2"), spliced(8, "R3"), placed(9, "R3")],
        [("7", "R3", COUNT), ("9", "R2", COUNT)],
    ),
    "a load that came late": (
        None,
        [placed(4, "R1"), unloaded(3, 4), loaded(3, "R2", "1", 4), placed(5, "R2")],
        [("4", "R2", LATE), ("5", "R1", LATE)],
    ),
    "an install that came late": (
        None,
        [unloaded(6), loaded(6, "R2"), placed(4, "R2", 6), placed(7, "R2")],
        [("4", "R1", LATE), ("7", "R1", LATE)],
    ),
    "all of it in its order": (None, [unloaded(6), loaded(6, "R2"), placed(7, "R2")], []),
}
WRONG = [spliced(3, "R2"), placed(4, "R1"), placed(6, "R1"), placed(7, "R2")]


def refusals(its: Iterable[tuple[str, str]], reel: str = "R2") -> list[untraced.Noted]:
    return [
        refused(
            messages.message(word, "r", REFUSED_AT, Machine="M", Slot="1", Reel=reel), refusal, 5
        )
        for word, refusal in its
    ]


def told(
    accepted: list[Accepted],
    records: Iterable[untraced.Noted] = (),
    works: Iterable[tapes.Work] = (),
    known: tuple[str, ...] = KNOWN,
) -> tuple[Tapes, list[DoubtfulPiece]]:
    """The tapes after FIRST and this, and the pieces in doubt."""
    its = Tapes()
    with contextlib.closing(sqlite3.connect(":memory:")) as file:
        file.executescript(files.TABLES)
        reels = [(reel, f"L-{reel}") for reel in known]
        file.executemany("INSERT INTO reel VALUES (?, 'P', ?, '1', 0, 9, 0, 0, 9, 0, -1, 0)", reels)
        for number, (own, effective, command, reel) in enumerate([*FIRST, *accepted], 1):
            row = number, f"u{number}", "s", own, effective, "\t".join(command), ""
            file.execute("INSERT INTO accepted VALUES (?, ?, ?, ?, ?, ?, ?)", row)
            if reel:
                piece = "INSERT INTO placement VALUES (?, 1, ?, 'C1', 'M', '1', ?, 0)"
                file.execute(piece, (number, command[2], reel))
        its.read("running", file)
        its.judge(doubts.refusals_of([*records], {}), works)
        return its, [*its.pieces(0, file)]


def test_a_tape_goes_on_in_the_next_file() -> None:
    """What a desk was begun with is no load: the tape of the file before is still on the slot."""
    its = Tapes()
    with contextlib.ExitStack() as held:
        older, newer = (
            held.enter_context(contextlib.closing(sqlite3.connect(":memory:"))) for _ in range(2)
        )
        for file, rows in (
            (older, [("u1", "s", LOAD)]),
            (newer, [(model.first_uid("0" * 24), "begin", LOAD), ("u2", "s", PLACED)]),
        ):
            file.executescript(files.TABLES)
            for number, (uid, source, text) in enumerate(rows, 1):
                row = number, uid, source, 1, 1, text, ""
                file.execute("INSERT INTO accepted VALUES (?, ?, ?, ?, ?, ?, ?)", row)
        newer.execute("INSERT INTO reel VALUES ('R1', 'P', 'L', '1', 0, 9, 0, 0, 9, 0, -1, 0)")
        newer.execute("INSERT INTO placement VALUES (2, 1, 'B', 'C1', 'M', '1', 'R1', 0)")
        its.read("older", older)
        its.read("newer", newer)
        its.judge([tapes.Refusal(("M", "1"), 1, "R2", "id", False)], [])
        assert [*its.pieces(0, older)] == []
        (piece,) = its.pieces(1, newer)
        assert (piece.board, piece.file, piece.other_reels) == ("B", "newer", ("R2",))


def test_a_name_that_came_again_is_of_each_of_its_lots() -> None:
    """Reel R1 of lot L-R1 is spent, and a later file receives another one of its name."""
    its, _ = told([], known=("R1", "R2"))
    with contextlib.closing(sqlite3.connect(":memory:")) as newer:
        newer.executescript(files.TABLES)
        newer.execute("INSERT INTO reel VALUES ('R1', 'Q', 'N', '1', 0, 9, 0, 0, 9, 0, -1, 0)")
        its.read("newer", newer)
    for lot, part in (("L-R1", "P"), ("N", "Q")):
        assert its.asked(Question("lot", lot, part)) == {"R1"}
    piece = its.piece(("B", "C1", "M", "1", 5), "R1", ["R2"], "why")
    assert (piece.lot, piece.parts) == ("L-R1; N", frozenset("PQ"))
    for lot in ("L-R1", "N"):
        assert its.concerning(Question("lot", lot), [piece]) == [piece]


@pytest.mark.parametrize("name", STORIES)
def test_the_pieces_of_a_tape_in_doubt(name: str) -> None:
    refusal, accepted, wanted = STORIES[name]
    _, pieces = told(accepted, refusals([refusal] if refusal else []))
    got = [(it.board, "; ".join(it.other_reels), it.why.partition(" (")[0]) for it in pieces]
    assert got == wanted


@pytest.mark.parametrize(
    ("work", "boards"),
    [
        (tapes.Work("M", "", 1, 6, 6), ["6", "7"]),
        (tapes.Work("M", "2", 1, 6, 6), []),
        (tapes.Work("N", "", 1, 6, 6), []),
        (tapes.Work("M", "", 0, 6, 6), []),
    ],
    ids=["of the machine", "of another slot", "of another machine", "without a piece"],
)
def test_untraced_work_makes_the_counts_of_its_reels_wrong(
    work: tapes.Work, boards: list[str]
) -> None:
    its, pieces = told(WRONG, works=[work])
    assert [it.board for it in pieces] == boards
    assert (
        its.reels_on(work)
        == {
            ("M", ""): "slot 1: R1 of lot L-R1; slot 1: R2 of lot L-R2",
            ("M", "2"): "none that the desk knew",
            ("N", ""): "none that the desk knew",
        }[work[:2]]
    )


@pytest.mark.parametrize(
    ("kind", "name", "concerns"),
    [
        ("lot", "L-R3", True),
        ("reel", "R2", True),
        ("reel", "R9", False),
        ("lot", "L-9", False),
        ("board", "7", True),
        ("board", "8", False),
    ],
)
def test_a_piece_in_doubt_concerns_its_part(kind: str, name: str, concerns: bool) -> None:
    its, pieces = told([placed(7, "R1")], refusals([SPLICE]))
    assert bool(its.concerning(Question(kind, name), pieces)) == concerns


def test_a_reel_that_the_line_does_not_know_concerns_all() -> None:
    its, pieces = told([placed(7, "R1")], refusals([("MaterialsSpliced", "UnknownReel")], "R9"))
    for question in (
        Question("lot", "L-9"),
        Question("reel", "R7"),
        Question("reels", "", "", ("R3",)),
    ):
        assert its.concerning(question, pieces) == pieces


def test_a_board_that_is_kept_may_have_each_reel_of_its_machine() -> None:
    """Those that the desk had there, and one that it refused on the same tape; of a report that
    nobody can read, any.
    """
    at = catalogue.spelled(7)
    accepted = [spliced(6, "R3"), loaded(9, "R9")]
    its, _ = told(accepted, refusals([("MaterialsSpliced", "WrongPart")]))
    for machine, reels in (("M", ("R1", "R2", "R3")), ("N", ())):
        said = messages.message("MaterialsInstalled", "w", at, Machine=machine, Board="B\r")
        (row,) = doubts.kept(its, refused(said, "NotInWork", 7))
        assert (row.board, row.machine, row.reel, row.other_reels) == ("B\\r", machine, "", reels)
        for kind, name in (("reel", "R2"), ("lot", "L-R1"), ("board", "B\\r")):
            assert its.concerning(Question(kind, name), [row])
    (row,) = doubts.kept(its, refused(said, "NotJson", 7, "unread")._replace(word="", body={}))
    for kind, name in (("lot", "L"), ("reel", "R"), ("board", "B")):
        assert its.concerning(Question(kind, name), [row._replace(board="")])
    for word in doubts.NO_PIECES:
        said = messages.message(word, "w", at, Machine="M", Board="B", Slot="1", Quantity=1)
        assert not [*doubts.kept(its, refused(said, "NotInWork", 7))]


@pytest.mark.parametrize("text", ["0001-01-01T00:00:00+14:00", "9999-12-31T23:59:59-14:00"])
def test_a_time_that_utc_does_not_have_has_no_minute(text: str) -> None:
    assert untraced.minute_of(text) is None
