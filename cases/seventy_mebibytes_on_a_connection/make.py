"""The answers to seventy definitions of parts."""
import pathlib

from spelling import accepted

pathlib.Path("answers.txt").write_text(
    "".join(f"200 {accepted(n, f'u{n}')}\n" for n in range(1, 71))
)
