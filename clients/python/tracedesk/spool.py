"""Messages that wait until they are answered, in one SQLite file: each is on disk, with its name,
before it is sent.

    spool = Spool("m1")
    spool.put(b'{..}')
    with spool.sending():
        for name in spool.names():
            text, is_tried = spool.take(name)
            spool.done(name, desk.send(text, is_tried))

A message waits; then it is `sent`, or it is set `aside` with the answer that says why, until a
person has it sent again or drops it. Programs may put messages in at the same time; one sends. Who
feeds a spool holds a lease in it, by which the interlock knows that the machine is heard. A program
that has a Spool opens the file in no other way: as that is closed SQLite's locks are lost.
"""
from __future__ import annotations

import contextlib
import json
import os
import pathlib
import re
import sqlite3
import threading
import time
import uuid
from typing import Any, Dict, Iterable, Iterator, List, NamedTuple, Optional, Tuple, Union

from . import answers, forms, records
from .disk import SpoolError, lines_of, locked

SCHEMA = """
PRAGMA journal_mode = WAL;
BEGIN IMMEDIATE;
CREATE TABLE IF NOT EXISTS message (
  n INTEGER PRIMARY KEY AUTOINCREMENT, text BLOB NOT NULL, uid TEXT NOT NULL,
  state TEXT NOT NULL DEFAULT 'waiting' CHECK (state IN ('waiting', 'sent', 'aside', 'dropped')),
  tried INTEGER NOT NULL DEFAULT 0, came REAL NOT NULL, answered REAL, answer BLOB,
  archived INTEGER NOT NULL DEFAULT 0);
CREATE INDEX IF NOT EXISTS message_of_state ON message (state, n);
CREATE INDEX IF NOT EXISTS message_of_uid ON message (uid);
CREATE TABLE IF NOT EXISTS taken (file TEXT PRIMARY KEY, lines INTEGER NOT NULL);
CREATE TABLE IF NOT EXISTS feeder (name TEXT PRIMARY KEY, ahead REAL NOT NULL, at REAL NOT NULL);
CREATE TABLE IF NOT EXISTS kept (name TEXT PRIMARY KEY, value TEXT NOT NULL);
PRAGMA user_version = 1;
COMMIT;
"""
KEPT_DAYS, KEPT_BYTES = 7.0, 512 << 20  # of sent messages, at most
ALWAYS_KEPT = 16 << 20  # bytes of sent messages, however old a wrong clock makes them
AT_ONCE = 1000  # lines of a file in one transaction
BUSY = 60.0  # seconds that another program may have the file
MOST_READ = 16 << 20  # bytes of a message that is read
RENEWED = 1.0  # seconds between two writes of a lease
SAME = 2.0  # seconds by which clocks may be apart that nobody has set


class Kept(NamedTuple):
    """A message of a spool; `answer` is none while it waits for its first one."""

    name: str
    text: bytes
    state: str
    answer: Optional[answers.Answer]

    @property
    def why(self) -> str:
        """Why it was set aside, and what to do."""
        return answers.why(self.answer) if self.answer and self.state == "aside" else ""


def clock() -> float:
    """Seconds, also those of a suspend."""
    return time.clock_gettime(time.CLOCK_BOOTTIME)


def ahead() -> float:
    """By how much the day's clock is ahead of that one: it tells one start of this machine from
    another.
    """
    return time.time() - clock()


def spelled(number: int) -> str:
    return f"{number:012}"


def uid_of(text: bytes) -> str:
    """The UniqueID of a message, as far as it can be read."""
    told = records.as_read(text) if len(text) <= MOST_READ else {}
    return str(told.get("UniqueID", "")).encode(errors="replace").decode()


class Spool:
    """A spool, which is made if there is none. Sent messages are kept for `days`, and of at most so
    many bytes. Its name is that of the sender.
    """

    def __init__(
        self,
        path: Union[str, "os.PathLike[str]"],
        days: float = KEPT_DAYS,
        most: int = KEPT_BYTES,
        name: str = "",
    ) -> None:
        self.path, self.days, self.most = pathlib.Path(path), days, most
        self.name = name or re.sub(r"\.spool$", "", self.path.absolute().name)
        if self.path.is_dir():
            raise SpoolError(
                f"{path} is a folder, and a spool is one file: give it another name. What waits in"
                f" a folder of the form before is put into it by: for it in {path}/waiting/*.json;"
                ' do cat "$it"; echo; done | tracedesk-send --spool FILE --put -'
            )
        with contextlib.suppress(FileExistsError):
            os.close(os.open(self.path, os.O_CREAT | os.O_EXCL | os.O_WRONLY, 0o600))
        # one connection for all threads of this process: who has the lock is alone
        self.lock = threading.RLock()
        self.database = sqlite3.connect(
            str(self.path), BUSY, isolation_level=None, check_same_thread=False
        )
        self.dropped_early = 0  # sent messages that went before their days were over
        self.renewed: Dict[str, float] = {}
        try:
            self.make()
        except sqlite3.DatabaseError as fault:
            self.close()
            raise SpoolError(f"{path} can't be used as a spool: {fault}") from None

    def make(self) -> None:
        """Makes what isn't there yet. Others may do so at the same time: SQLite waits for none of
        them while it changes to a log.
        """
        end = time.monotonic() + BUSY
        while self.rows("PRAGMA user_version") != [(1,)]:
            try:
                self.database.executescript(SCHEMA)
            except sqlite3.OperationalError:
                with contextlib.suppress(sqlite3.Error):
                    self.database.execute("ROLLBACK")
                if time.monotonic() > end:
                    raise
                time.sleep(0.05)
        self.rows("PRAGMA synchronous = FULL")
        self.rows("PRAGMA temp_store = MEMORY")  # a service may have no folder for other files

    def close(self) -> None:
        self.database.close()

    def rows(self, query: str, *values: object) -> List[Any]:
        with self.lock:
            return self.database.execute(query, values).fetchall()

    @contextlib.contextmanager
    def whole(self) -> Iterator[None]:
        """All that is done within, or nothing: it is on disk at the end."""
        with self.lock:
            if self.database.in_transaction:
                yield
                return
            self.database.execute("BEGIN IMMEDIATE")
            try:
                yield
                self.database.execute("COMMIT")
            except BaseException:
                if self.database.in_transaction:
                    self.database.execute("ROLLBACK")
                raise

    def change(self, query: str, *values: object) -> int:
        """Changes rows; how many they were."""
        with self.whole():
            return self.database.execute(query, values).rowcount

    # --- What comes in

    def put(self, message: Union[forms.Message, bytes], tried: bool = False) -> str:
        """Keeps a message behind those before it, and returns its name in the spool."""
        text = message if isinstance(message, bytes) else message.text
        with self.whole():
            added = self.database.execute(
                "INSERT INTO message (text, uid, came, tried) VALUES (?, ?, ?, ?)",
                (text, uid_of(text), time.time(), tried),
            )
        return spelled(added.lastrowid or 0)

    def take_file(self, path: pathlib.Path) -> int:
        """Takes the lines of a file in, each once, whatever ends it, and deletes the file; how many
        they are. Nobody else has a file of such a path.
        """
        name, count = str(path.absolute()), 0
        done = dict(self.rows("SELECT file, lines FROM taken")).get(name, 0)
        with open(path, "rb") as file:
            its = lines_of(file)
            while some := [line for _, line in zip(range(AT_ONCE), its)]:
                with self.whole():
                    for line in some[max(0, done - count) :]:
                        self.put(line)
                    count += len(some)
                    self.change("INSERT OR REPLACE INTO taken VALUES (?, ?)", name, count)
        path.unlink()
        self.forget_file(path)
        return count

    def forget_file(self, path: pathlib.Path) -> None:
        """Says that a file which was taken in is not there any more."""
        if self.rows("SELECT 1 FROM taken WHERE file = ?", str(path.absolute())):
            self.change("DELETE FROM taken WHERE file = ?", str(path.absolute()))

    # --- Sending

    @contextlib.contextmanager
    def sending(self) -> Iterator[None]:
        """Held by the one that sends."""
        with self.alone("sending", "sender"):
            yield

    @contextlib.contextmanager
    def alone(self, what: str, who: str) -> Iterator[None]:
        """Held by the one process that does this."""
        why = f"another {who} has this spool: end that one, or name another spool"
        with locked(pathlib.Path(f"{self.path}.{what}"), f"{self.path}: {why}"):
            yield

    def names(self, state: str = "waiting") -> List[str]:
        """The messages that wait, or are in another state, in their order."""
        found = self.rows("SELECT n FROM message WHERE state = ? ORDER BY n", state)
        return [spelled(n) for (n,) in found]

    def waiting(self) -> Tuple[int, float]:
        """How many messages wait, and since when the first one does."""
        count, came = self.rows(
            "SELECT count(*), ifnull(min(came), 0) FROM message WHERE state = 'waiting'"
        )[0]
        return int(count), float(came)

    def waits(self) -> Tuple[float, int, bool]:
        """The numbers of the first and the last message that waits, and whether a start of work
        does.
        """
        oldest, newest = self.rows("SELECT min(n), max(n) FROM message WHERE state = 'waiting'")[0]
        starts = self.rows(
            "SELECT max(instr(text, CAST('WorkStarted' AS BLOB))) FROM (SELECT text FROM message"
            " WHERE state = 'waiting' ORDER BY n DESC LIMIT ?)",
            AT_ONCE,
        )
        return oldest or float("inf"), newest or 0, bool(starts[0][0])

    def text(self, name: str) -> bytes:
        return bytes(self.row(name)[0])

    def is_tried(self, name: str) -> bool:
        """Whether a run before may have sent this message without an answer."""
        return self.rows("SELECT tried FROM message WHERE n = ?", number_of(name)) == [(1,)]

    def take(self, name: str) -> Tuple[bytes, bool]:
        """A message whose turn it is, and whether it was tried before; that it is tried now is on
        disk by then.
        """
        is_tried = self.is_tried(name)
        if not is_tried:
            self.change("UPDATE message SET tried = 1 WHERE n = ?", number_of(name))
        return self.text(name), is_tried

    def untried(self, name: str) -> None:
        """Says that a message which was taken was not sent, or had its answer."""
        self.change("UPDATE message SET tried = 0 WHERE n = ?", number_of(name))

    def done(self, name: str, answer: answers.Answer, is_said: bool = False) -> None:
        """Keeps the answer to a message, and where it belongs now: whether it is sent although it
        isn't taken, as one that says what no desk can read.
        """
        self.change(
            "UPDATE message SET state = ?, answered = ?, answer = ?, archived = ?"
            " WHERE n = ? AND state = 'waiting'",
            "sent" if is_said or answers.is_taken(answer) else "aside",
            time.time(),
            answer.text,
            answers.is_archived(answer),
            number_of(name),
        )

    # --- What was sent

    def again_since(self, since: float) -> List[str]:
        """Puts each message that was sent since this second of the clock before those that wait,
        under its old name; they are returned. Behind them goes what was not taken since then, as
        far as the book of the line that was restored has lost an entry of it.
        """
        with self.sending(), self.whole():
            its = self.rows(
                "SELECT n FROM message WHERE state = 'sent' AND n >= (SELECT min(n) FROM message"
                " WHERE state = 'sent' AND answered >= ?) ORDER BY n",
                since,
            )
            for (n,) in its:
                self.change("UPDATE message SET state = 'waiting', tried = 1 WHERE n = ?", n)
            for (text,) in self.rows(
                "SELECT text FROM message WHERE state IN ('aside', 'dropped') AND answered >= ?"
                " ORDER BY n",
                since,
            ):
                told = records.as_read(text if len(text) <= MOST_READ else b"")
                if records.may_be_kept(told):
                    self.put(records.unread(text, told, "it was refused before a restore"))
        return [spelled(n) for (n,) in its]

    def forget(self) -> None:
        """Deletes sent messages that are older than their days, and the oldest of those that are
        too many bytes. Both counts are of what was sent later.
        """
        later = (
            "DELETE FROM message WHERE n IN (SELECT n FROM (SELECT n, answered,"
            " sum(length(text)) OVER (ORDER BY n DESC) - length(text) AS later"
            " FROM message WHERE state = 'sent') WHERE "
        )
        with self.whole():
            old = time.time() - self.days * 86400
            self.change(later + "later >= ? AND answered < ?)", max(1, ALWAYS_KEPT), old)
            self.dropped_early += self.change(later + "later >= ?)", max(1, self.most))

    # --- What was set aside

    def kept(self, name: str) -> Kept:
        text, state, answer, archived = self.row(name)
        told = answers.read(answer, bool(archived)) or answers.LINE_TOO_LONG if answer else None
        return Kept(name, bytes(text), state, told)

    def row(self, name: str) -> Any:
        query = "SELECT text, state, answer, archived FROM message WHERE n = ?"
        its = self.rows(query, number_of(name))
        if not its:
            raise SpoolError(f"{self.path} has no message {name}: --list all names them")
        return its[0]

    def all(self, which: str, *values: object) -> Iterator[Kept]:
        """Messages, in their order, one at a time: they may be many bytes."""
        for (n,) in self.rows(f"SELECT n FROM message {which} ORDER BY n", *values):
            yield self.kept(spelled(n))

    def of_uid(self, unique_id: str) -> List[Kept]:
        """The messages of a UniqueID."""
        return list(self.all("WHERE uid = ?", unique_id))

    def message(self, name: str) -> Dict[str, Any]:
        """A message as far as it can be read."""
        return records.as_read(self.text(name))

    def is_report(self, name: str) -> bool:
        """Whether a message that was set aside reports work, and so is not sent again."""
        if name not in self.names("aside"):
            raise SpoolError(
                f"{self.path} has no message {name} that was set aside: --list aside names them. A"
                " time is written as 2026-03-02T06:00Z"
            )
        return records.is_report(self.message(name))

    def again(self, names: Iterable[str]) -> List[str]:
        """Puts requests that were set aside last; their new names."""
        found = []
        with self.whole():
            for name in names:
                if self.is_report(name):
                    raise SpoolError(f"message {name} is a report of work: it isn't sent again")
                found.append(self.put(self.text(name)))
                self.drop([name])
        return found

    def drop(self, names: Iterable[str]) -> None:
        """Messages that were set aside are done with. A report that was refused stays known."""
        with self.whole():
            for name in names:
                self.is_report(name)
                self.change("UPDATE message SET state = 'dropped' WHERE n = ?", number_of(name))

    # --- Leases, and what else outlives a program

    def renew(self, feeder: str) -> None:
        """Says that who feeds the spool under this name lives. It may be called often. Where the
        disk takes nothing the lease ends.
        """
        now = clock()
        if now - self.renewed.get(feeder, -RENEWED) < RENEWED:
            return
        self.renewed[feeder] = now
        with self.lock, contextlib.suppress(sqlite3.Error):
            self.rows("PRAGMA synchronous = NORMAL")  # after a power cut nobody asks for it
            try:
                self.rows("INSERT OR REPLACE INTO feeder VALUES (?, ?, ?)", feeder, ahead(), now)
            finally:
                self.rows("PRAGMA synchronous = FULL")

    def release(self, feeder: str) -> None:
        """Says that the spool is fed no more under this name."""
        if self.rows("SELECT 1 FROM feeder WHERE name = ?", feeder):
            self.change("DELETE FROM feeder WHERE name = ?", feeder)
        self.renewed.pop(feeder, None)

    def feeders(self) -> Dict[str, float]:
        """Who feeds the spool, each with when it said last that it lives: before all time, if that
        was before this machine was started, or a clock was set since.
        """
        its = self.rows("SELECT name, ahead, at FROM feeder ORDER BY name")
        is_now = {name: abs(ahead() - was) < SAME for name, was, _ in its}
        return {name: at if is_now[name] else -float("inf") for name, _, at in its}

    def recall(self, name: str) -> Any:
        """What a program keeps here under a name; none if it kept nothing."""
        its = self.rows("SELECT value FROM kept WHERE name = ?", name)
        return json.loads(its[0][0]) if its else None

    def remember(self, name: str, value: Any) -> None:
        self.change("INSERT OR REPLACE INTO kept VALUES (?, ?)", name, json.dumps(value))

    def identity(self) -> str:
        """What no other spool has: it is in the names of files that this one takes in."""
        made = json.dumps(uuid.uuid4().hex)
        self.change("INSERT OR IGNORE INTO kept VALUES ('identity', ?)", made)
        return str(self.recall("identity"))


def number_of(name: str) -> int:
    """The number of a message; of what is no name 0, which none has."""
    return int(name) if re.fullmatch(r"\d{1,18}", name, re.ASCII) else 0
