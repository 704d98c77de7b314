"""The metrics of tracedesk-watch, each with its type and meaning, and their text for Prometheus."""
from __future__ import annotations

from collections.abc import Iterator

from tracedesk_ops import plant

BYTES_A_PIECE = 120  # of a desk's file: docs/figures.md, "A file's start and memory by its pieces"
METRICS = f"""\
tracedesk_up gauge 1 where the desk answered a GET on its port in the time given, else 0.
tracedesk_get_seconds gauge Seconds of that GET, with its wait behind other requests. None where it had no answer.
tracedesk_proxy_up gauge 1 where nginx answered /health over TLS, whatever it said, else 0.
tracedesk_service_active gauge 1 where systemd calls the service active, also while it reads its file, else 0.
tracedesk_service_restarts_total counter How often systemd started the service again by itself (NRestarts).
tracedesk_overdue_pieces gauge Pieces that were placed past their floor life: rows of the report /overdue.
tracedesk_least_floor_life_seconds gauge Least floor life left of a reel on the machine, whole minutes as of the desk minute, by the report /slots. None where no reel there has a limit.
tracedesk_least_slot_pieces gauge Fewest pieces on a slot of the machine, by the report /slots. 0 where a slot of the sheet that setup.json names has none, by /kit.
tracedesk_book_entries gauge Entries of the line's book: what was refused or can't be read, and what people decided, held and released.
tracedesk_book_open gauge Entries of the book that are open: each stops its machine.
tracedesk_book_undecided gauge Entries of the book that wait for a decision.
tracedesk_file_bytes gauge Size of the desk's file without its log.
tracedesk_log_bytes gauge Size of the log beside the desk's file.
tracedesk_disk_free_bytes gauge Bytes free on the disk of the desk's file.
tracedesk_pieces_estimate gauge An estimate of the placed pieces: tracedesk_file_bytes at {BYTES_A_PIECE} bytes a piece.
tracedesk_next_start_estimate_seconds gauge An estimate of how long the next start takes: tracedesk_pieces_estimate at {plant.SECONDS_A_MILLION} seconds a million.
tracedesk_backup_timestamp_seconds gauge When the desk was sealed last, by the file's time.
tracedesk_backup_commands gauge Accepted commands in the newest sealed file.
tracedesk_backup_pieces gauge Placed pieces in the newest sealed file, by its tables.
tracedesk_clock_timestamp_seconds gauge Minute of the last ClockSet of the idle clock that the desk accepted.
tracedesk_clock_commands gauge Accepted commands of the desk at that moment: the Number in its answer.
tracedesk_sender_waiting gauge Messages that wait at the sender, by its status.
tracedesk_sender_aside gauge Messages that the sender has set aside, by its status.
tracedesk_sender_oldest_waiting_timestamp_seconds gauge When the oldest message that waits came to the sender, by its status. None where none waits.
tracedesk_sender_timestamp_seconds gauge When the sender wrote its status.
tracedesk_interlock_go gauge 1 where the sender's interlock lets the machine go, 0 where it stops it, by its status.
tracedesk_watch_source_up gauge 1 where all of this source could be read for this file, else 0, and metrics of it are missing.
tracedesk_watch_timestamp_seconds gauge When this file was written.
"""
Sample = tuple[str, float, dict[str, str]]  # a metric without `tracedesk_`, its value and labels
Samples = Iterator[Sample]


def text_of(samples: Samples) -> str:
    """The samples in the text format of Prometheus, each metric's together."""
    found: dict[str, list[str]] = {}
    for name, value, labels in samples:
        lines = found.setdefault(f"tracedesk_{name}", [])
        lines.append(f"tracedesk_{name}{labels_of(labels)} {value}\n")
    text = ""
    for row in METRICS.splitlines():
        name, kind, about = row.split(" ", 2)
        if name in found:
            text += f"# HELP {name} {about}\n# TYPE {name} {kind}\n{''.join(found[name])}"
    return text


def labels_of(labels: dict[str, str]) -> str:
    escaped = str.maketrans({"\\": r"\\", '"': r"\"", "\n": r"\n"})
    texts = {name: it.encode("utf-8", "replace").decode() for name, it in labels.items()}
    written = [f'{name}="{text.translate(escaped)}"' for name, text in texts.items()]
    return f"{{{','.join(written)}}}" if written else ""
