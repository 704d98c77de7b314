"""Recalls in a browser: serves the page, or works off its queue.

usage: tracedesk-recall-page serve [--socket FILE] [--queue FOLDER]
       tracedesk-recall-page work [--queue FOLDER] [--once]

examples:
  tracedesk-recall-page serve                      as the unit does, for the proxy in front of it
  tracedesk-recall-page work                       as the other unit does: one recall at a time, at
                                                   low priority
  TRACEDESK_SET_UP=/srv/set-up tracedesk-recall-page work --once
                                                   lines whose set-up files are in another folder

The proxy lets readers with a log-in of /etc/tracedesk/recallers in, and names them in the header
X-Reader. `serve` takes their questions into the queue, and shows the answers. It reads no desk's
file. `work` calls tracedesk-recall for each of them, over the lines and the mirrors that are set
up, and writes holds and releases into the books of the lines. What is cut off, as by a restart, is
done anew. A recall that takes more than four hours is stopped, and each ends, so that the next one
is run. A program of a recall may take 4 GiB, and a paper five minutes of the processor. The queue
is on disk, and answers stay there until somebody deletes them.

--queue   the folder of the queue (/var/lib/tracedesk-recall), with the folders asked and answers
--socket  where the proxy finds the page (/run/tracedesk-recall/socket)
--once    ends once nothing waits

The page wants python3-flask and python3-waitress. Without weasyprint it has no PDF, and without
python3-xlsxwriter no spreadsheet.

Exit status: 0 ended; 2 bad command line; 3 something that it needs is missing, and standard error
says what; 9 an unexpected failure.
"""
from __future__ import annotations

import argparse
import importlib
import pathlib
import sys

from tracedesk_ops import plant, reader_of

QUEUE = pathlib.Path("/var/lib/tracedesk-recall")
SOCKET = pathlib.Path("/run/tracedesk-recall/socket")
PACKAGES = {"flask": "python3-flask", "waitress": "python3-waitress", "jinja2": "python3-jinja2"}
THREADS = 8
MISSING = 3


def parse() -> argparse.Namespace:
    reader = reader_of(__doc__)
    reader.add_argument("what", choices=("serve", "work"))
    reader.add_argument("--queue", type=pathlib.Path, default=QUEUE, metavar="FOLDER")
    reader.add_argument("--socket", type=pathlib.Path, default=SOCKET, metavar="FILE")
    reader.add_argument("--once", action="store_true")
    words = reader.parse_args()
    for folder in (words.queue / "asked", words.queue / "answers"):
        if not folder.is_dir():
            reader.error(f"there is no folder {folder}: make it, or name another one by --queue")
    return words


def serve(words: argparse.Namespace) -> None:
    from tracedesk_ops.recallpage import app

    made = app.make(words.queue)
    waitress = importlib.import_module("waitress")
    its = {"unix_socket": str(words.socket), "unix_socket_perms": "660"}
    waitress.serve(made, threads=THREADS, **its)


def work(words: argparse.Namespace) -> None:
    from tracedesk_ops.recallpage.jobs import Queue
    from tracedesk_ops.recallpage.worker import Worker

    recall = pathlib.Path(sys.argv[0]).resolve().with_name("tracedesk-recall")
    Worker(Queue(words.queue), recall).work(words.once)


def main() -> int:
    words = parse()
    try:
        (serve if words.what == "serve" else work)(words)
    except ImportError as fault:
        package = PACKAGES.get(fault.name or "", fault.name)
        plant.tell(f"{package} is missing: apt-get install {package}")
        return MISSING
    return 0
