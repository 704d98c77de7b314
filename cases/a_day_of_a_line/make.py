"""A shift of dev/tracedesk_dev/shift.py, with the answers that it says its messages have to get."""
import pathlib
import sys

sys.path.insert(0, str(pathlib.Path(__file__).resolve().parents[2] / "dev"))
from tracedesk_dev import shift  # noqa: E402

said = shift.Shift(seed=5, boards=120).lines
pathlib.Path("messages.jsonl").write_bytes(b"".join(it.text + b"\n" for it in said))
pathlib.Path("answers.jsonl").write_bytes(b"".join(it.answer + b"\n" for it in said))
pathlib.Path("lawful.txt").write_text(f"lawful {sum(it.wanted == 'Accepted' for it in said)}\n")
